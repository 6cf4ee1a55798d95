package pressclip.monitor;

import com.sun.jna.Pointer;
import com.sun.jna.ptr.LongByReference;
import com.sun.jna.ptr.PointerByReference;
import java.util.ArrayList;
import java.util.Collections;
import java.util.HashMap;
import java.util.LinkedHashMap;
import java.util.LinkedHashSet;
import java.util.List;
import java.util.Map;
import java.util.Set;
import pressclip.monitor.HighlightsMatch.Hit;

/** What is read of a result: a pressclip_found, whose members lie eight bytes apart in the order of the header. */
final class Results {
  private static final int IDS = 8;
  private static final int ID_AT = 16;
  private static final int HIT_AT = 24;
  private static final int HIT_COUNT = 32;
  private static final int HIT_NAME = 40;
  private static final int HIT_POSITION = 48;
  private static final int NAME_COUNT = 56;
  private static final int NAMES = 64;
  private static final int NAME_AT = 72;

  private Results() {}

  private static Pointer all(Pointer result) {
    PointerByReference found = new PointerByReference();
    Library.well(Library.pressclip_result_all(result, found), 0);
    return found.getValue();
  }

  private static long[] numbers(Pointer found, int member, int count) {
    return found.getPointer(member).getLongArray(0, count);
  }

  /** So many texts, a byte 0 behind each. */
  private static List<String> texts(Pointer found, int member, int places, int count) {
    long[] at = numbers(found, places, count + 1);
    byte[] bytes = found.getPointer(member).getByteArray(0, Math.toIntExact(at[count]));
    List<String> texts = new ArrayList<>(count);
    for (int place = 0; place < count; place++) {
      texts.add(Utf8.text(bytes, (int) at[place], (int) (at[place + 1] - at[place] - 1)));
    }
    return texts;
  }

  /** The ids of a result. */
  static List<String> ids(Pointer result) {
    Pointer found = all(result);
    return texts(found, IDS, ID_AT, Math.toIntExact(found.getLong(0)));
  }

  /** The matches that a result has of a document. */
  static <T extends QueryMatch> MatchingQueries<T> matches(Pointer result, Given given, MatcherFactory<T> factory) {
    Pointer found = all(result);
    int count = Math.toIntExact(found.getLong(0));
    List<String> ids = texts(found, IDS, ID_AT, count);
    List<Map<String, Set<Hit>>> hits = factory.wantsHits ? hits(found, count, given) : null;
    Map<String, T> matches = new LinkedHashMap<>(2 * count);
    for (int place = 0; place < count; place++) {
      String id = ids.get(place);
      matches.put(id, factory.make(id, hits == null ? Collections.emptyMap() : hits.get(place)));
    }
    return new MatchingQueries<>(matches, Library.pressclip_result_asked(result),
        Library.pressclip_result_nanoseconds(result));
  }

  /** The hits of each id, by fields. */
  private static List<Map<String, Set<Hit>>> hits(Pointer found, int count, Given given) {
    int hitCount = Math.toIntExact(found.getLong(HIT_COUNT));
    List<String> names = texts(found, NAMES, NAME_AT, Math.toIntExact(found.getLong(NAME_COUNT)));
    long[] at = numbers(found, HIT_AT, count + 1);
    long[] name = numbers(found, HIT_NAME, hitCount);
    long[] position = numbers(found, HIT_POSITION, hitCount);
    Map<String, Hit[]> words = new HashMap<>();
    List<Map<String, Set<Hit>>> each = new ArrayList<>(count);
    for (int place = 0; place < count; place++) {
      Map<String, Set<Hit>> hits = new LinkedHashMap<>();
      for (int hit = (int) at[place]; hit < at[place + 1]; hit++) {
        String field = names.get((int) name[hit]);
        Hit[] all = words.computeIfAbsent(field, key -> words(given.texts.get(given.names.indexOf(key))));
        hits.computeIfAbsent(field, key -> new LinkedHashSet<>()).add(all[(int) position[hit]]);
      }
      each.add(hits);
    }
    return each;
  }

  /** The words of a text, each as a hit. */
  static Hit[] words(byte[] text) {
    PointerByReference spans = new PointerByReference();
    LongByReference count = new LongByReference();
    Library.well(Library.pressclip_words(Room.ended(text), text.length, spans, count), 0);
    Pointer at = spans.getValue();
    try {
      int words = Math.toIntExact(count.getValue());
      long[] places = at.getLongArray(0, 2 * words);
      Hit[] hits = new Hit[words];
      int read = 0;
      int characters = 0;
      for (int word = 0; word < words; word++) {
        int start = characters + Utf8.characters(text, read, (int) places[2 * word]);
        read = (int) places[2 * word + 1];
        characters = start + Utf8.characters(text, (int) places[2 * word], read);
        hits[word] = new Hit(word, start, word, characters);
      }
      return hits;
    } finally {
      Library.pressclip_free(at);
    }
  }
}
