package pressclip.monitor;

import java.nio.ByteBuffer;
import java.nio.CharBuffer;
import java.nio.charset.CharacterCodingException;
import java.nio.charset.StandardCharsets;
import java.util.Objects;

/** Texts as the library has them. */
final class Utf8 {
  private Utf8() {}

  /** The bytes of a text. IllegalArgumentException where it has half of a surrogate pair. */
  static byte[] of(String text, String what) {
    Objects.requireNonNull(text, what + " is null");
    try {
      ByteBuffer bytes = StandardCharsets.UTF_8.newEncoder().encode(CharBuffer.wrap(text));
      byte[] exact = new byte[bytes.remaining()];
      bytes.get(exact);
      return exact;
    } catch (CharacterCodingException error) {
      throw new IllegalArgumentException(what + " has half of a surrogate pair", error);
    }
  }

  /** So many bytes as a text, from a place on. */
  static String text(byte[] bytes, int from, int length) {
    return new String(bytes, from, length, StandardCharsets.UTF_8);
  }

  /** How many characters of a {@code String} the bytes between two places are. */
  static int characters(byte[] bytes, int from, int to) {
    int count = 0;
    for (int at = from; at < to; at++) {
      int first = bytes[at] & 0xFF;
      // A character of four bytes is a surrogate pair, and a byte 10xxxxxx none of its own.
      count += first >= 0xF0 ? 2 : first < 0x80 || first >= 0xC0 ? 1 : 0;
    }
    return count;
  }
}
