package pressclip.monitor;

import com.sun.jna.Memory;
import com.sun.jna.Pointer;
import com.sun.jna.ptr.LongByReference;
import com.sun.jna.ptr.PointerByReference;
import java.nio.charset.StandardCharsets;
import java.util.Arrays;

/** Room outside the heap, as calls are handed it. */
final class Room {
  private Room() {}

  /** The bytes with a byte 0 behind them, so that there is one at least. */
  static byte[] ended(byte[] bytes) {
    return Arrays.copyOf(bytes, bytes.length + 1);
  }

  /** The text that a call has handed out, or null for a null pointer; it goes back to the library. */
  static String taken(PointerByReference reply, LongByReference length) {
    Pointer at = reply.getValue();
    if (at == null) {
      return null;
    }
    try {
      byte[] bytes = at.getByteArray(0, Math.toIntExact(length.getValue()));
      return new String(bytes, StandardCharsets.UTF_8);
    } finally {
      Library.pressclip_free(at);
    }
  }

  /** Room of so many bytes, of one at least. */
  static Memory of(long size) {
    return new Memory(Math.max(1, size));
  }
}
