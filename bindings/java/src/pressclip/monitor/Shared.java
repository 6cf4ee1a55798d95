package pressclip.monitor;

import com.sun.jna.Pointer;
import com.sun.jna.ptr.PointerByReference;
import java.util.concurrent.locks.ReadWriteLock;
import java.util.concurrent.locks.ReentrantReadWriteLock;
import java.util.function.Function;

/** A registry in C: any number of calls go side by side, and its end waits until none is in it. */
final class Shared implements Runnable {
  private final ReadWriteLock lock = new ReentrantReadWriteLock();
  private final PointerByReference at = new PointerByReference();

  Shared(boolean hits) {
    Library.well(Library.pressclip_shared_open((byte) (hits ? 1 : 0), at), 0);
  }

  /** What a call gives of it. AlreadyClosedException after its end. */
  <T> T with(Function<Pointer, T> call) {
    lock.readLock().lock();
    try {
      Pointer shared = at.getValue();
      if (shared == null) {
        throw new AlreadyClosedException();
      }
      return call.apply(shared);
    } finally {
      lock.readLock().unlock();
    }
  }

  /** Throws after its end. */
  void check() {
    with(at -> at);
  }

  /** Ends it. */
  @Override
  public void run() {
    lock.writeLock().lock();
    try {
      Library.pressclip_shared_close(at);
    } finally {
      lock.writeLock().unlock();
    }
  }
}
