package pressclip.monitor;

/** A text is no query. */
public class QueryException extends RefusedException {
  private static final long serialVersionUID = 1L;
  private final String fault;
  private final int at;

  QueryException(int which, Fault fault) {
    super("query", which, fault.toString());
    this.fault = fault.word;
    this.at = fault.at;
  }

  /** The fault's word, as docs/EXPLAIN.md has it. */
  public String getFault() {
    return fault;
  }

  /** The character at which the fault is, as {@code substring} counts; the text's length where something is missing. */
  public int getAt() {
    return at;
  }
}
