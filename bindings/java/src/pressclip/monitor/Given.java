package pressclip.monitor;

import com.sun.jna.Memory;
import com.sun.jna.Pointer;
import java.util.ArrayList;
import java.util.List;

/** A document as C sees it: an array of pressclip_field, and behind it the texts that it points to. */
final class Given implements AutoCloseable {
  /** The bytes of a pressclip_field: two pointers and two sizes. */
  private static final int FIELD = 32;
  /** The bytes of a pressclip_article: two pointers and two sizes. */
  static final int ARTICLE = 32;
  /** The id of each document, which C wants and nobody sees. */
  static final byte[] ID = {'d', 0};
  static final long ID_LENGTH = 1;

  final List<String> names = new ArrayList<>();
  final List<byte[]> texts = new ArrayList<>();
  final Memory memory;

  Given(Document document) {
    List<byte[]> encodedNames = new ArrayList<>();
    long size = 0;
    for (Field field : document.getFields()) {
      byte[] name = Utf8.of(field.name(), "a field's name");
      byte[] text = Utf8.of(field.stringValue(), "a field's text");
      names.add(field.name());
      encodedNames.add(name);
      texts.add(text);
      size += FIELD + name.length + text.length;
    }
    memory = Room.of(size + 1);
    long at = (long) FIELD * texts.size();
    for (int place = 0; place < texts.size(); place++) {
      at = put(FIELD * (long) place, at, encodedNames.get(place));
      at = put(FIELD * (long) place + 16, at, texts.get(place));
    }
  }

  /** Puts a text at a place, and into the structure where it is and how long; gives the place behind it. */
  private long put(long structure, long at, byte[] text) {
    memory.setPointer(structure, memory.share(at));
    memory.setLong(structure + 8, text.length);
    memory.write(at, text, 0, text.length);
    return at + text.length;
  }

  long count() {
    return texts.size();
  }

  /** Puts itself as a pressclip_article, whose id lies at an address. */
  void putArticle(Pointer articles, long place, Pointer id) {
    articles.setPointer(place, id);
    articles.setLong(place + 8, ID_LENGTH);
    articles.setPointer(place + 16, memory);
    articles.setLong(place + 24, count());
  }

  @Override
  public void close() {
    memory.close();
  }
}
