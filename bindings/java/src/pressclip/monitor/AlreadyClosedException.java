package pressclip.monitor;

/** A monitor is closed. */
public class AlreadyClosedException extends IllegalStateException {
  private static final long serialVersionUID = 1L;

  /** Says so. */
  public AlreadyClosedException() {
    super("this Monitor is closed");
  }
}
