package pressclip.monitor;

/** A field whose text is cut into words. */
public final class TextField extends Field {
  /** A field of this name and text. */
  public TextField(String name, String text, Store store) {
    super(name, text);
  }
}
