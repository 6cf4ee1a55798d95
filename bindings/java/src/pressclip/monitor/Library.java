package pressclip.monitor;

import com.sun.jna.Native;
import com.sun.jna.NativeLibrary;
import com.sun.jna.Pointer;
import com.sun.jna.ptr.LongByReference;
import com.sun.jna.ptr.PointerByReference;

/** The calls of libpressclip, as include/pressclip.h has them. A size is a long: the library is for 64 bits. */
final class Library {
  static final int OK = 0;
  static final int QUERY = 2;
  private static final String NAMED = System.getenv("PRESSCLIP_LIBRARY");

  static {
    Native.register(Library.class, NativeLibrary.getInstance(NAMED == null || NAMED.isEmpty() ? "pressclip" : NAMED));
  }

  private Library() {}

  static native String pressclip_word(int status);

  static native String pressclip_version();

  /** A C bool is handed over as a byte of 0 or 1. */
  static native int pressclip_shared_open(byte hits, PointerByReference shared);

  static native void pressclip_shared_close(PointerByReference shared);

  static native int pressclip_shared_register_many(
      Pointer shared, Pointer listings, long count, LongByReference which);

  static native int pressclip_shared_delete(Pointer shared, byte[] id, long length, LongByReference deleted);

  static native int pressclip_shared_clear(Pointer shared);

  static native int pressclip_shared_purge(Pointer shared);

  static native int pressclip_shared_count(Pointer shared, LongByReference count);

  static native int pressclip_shared_show(
      Pointer shared, byte[] id, long length, PointerByReference query, LongByReference queryLength);

  static native int pressclip_shared_match(
      Pointer shared, byte[] id, long length, Pointer fields, long count, PointerByReference result);

  static native int pressclip_shared_match_many(
      Pointer shared, Pointer articles, long count, Pointer results, LongByReference which);

  static native int pressclip_shared_snapshot(Pointer shared, PointerByReference view);

  static native void pressclip_snapshot_free(PointerByReference view);

  static native int pressclip_snapshot_ids(
      Pointer view, byte[] after, long length, long most, PointerByReference result);

  static native int pressclip_result_all(Pointer result, PointerByReference found);

  static native long pressclip_result_asked(Pointer result);

  static native long pressclip_result_nanoseconds(Pointer result);

  static native void pressclip_result_free(Pointer result);

  static native int pressclip_words(byte[] text, long length, PointerByReference spans, LongByReference count);

  static native int pressclip_explain(
      byte[] query, long length, PointerByReference reply, LongByReference replyLength);

  static native void pressclip_free(Pointer answer);

  /** Throws what a status stands for, of the thing in this place of what was handed in. */
  static void well(int status, long which) {
    if (status == OK) {
      return;
    }
    String word = pressclip_word(status);
    switch (word) {
      case "memory":
        throw new OutOfMemoryError("pressclip: an allocation of the library failed");
      case "closed":
        throw new AlreadyClosedException();
      default:
        throw new RefusedException(word, Math.toIntExact(which));
    }
  }
}
