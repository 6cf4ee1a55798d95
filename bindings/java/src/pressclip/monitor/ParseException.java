package pressclip.monitor;

/** A text is no query; the message says why and where. */
public class ParseException extends Exception {
  private static final long serialVersionUID = 1L;

  ParseException(String text, Fault fault) {
    super("Cannot parse '" + text + "': " + fault);
  }
}
