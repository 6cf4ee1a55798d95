package pressclip.monitor;

import java.util.Objects;

/** A field of a document. */
public abstract sealed class Field permits TextField {
  /** Whether Lucene keeps the text of a field in an index. A monitor keeps no document, so both mean the same. */
  public enum Store {
    /** It is kept. */
    YES,
    /** It is not kept. */
    NO
  }

  private final String name;
  private final String text;

  Field(String name, String text) {
    this.name = Objects.requireNonNull(name, "a field's name is null");
    this.text = Objects.requireNonNull(text, "a field's text is null");
  }

  /** Its name. */
  public String name() {
    return name;
  }

  /** Its text. */
  public String stringValue() {
    return text;
  }
}
