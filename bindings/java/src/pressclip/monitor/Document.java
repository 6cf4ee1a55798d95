package pressclip.monitor;

import java.util.ArrayList;
import java.util.Collections;
import java.util.List;
import java.util.Objects;

/** An article: up to 16 fields, whose names differ. */
public final class Document {
  private final List<Field> fields = new ArrayList<>();

  /** A document without a field. */
  public Document() {}

  /** Puts a field behind the others. Two of one name are refused when the document is matched. */
  public void add(Field field) {
    fields.add(Objects.requireNonNull(field, "a field is null"));
  }

  /** The text of the first field with this name, or null where there is none. */
  public String get(String name) {
    for (Field field : fields) {
      if (field.name().equals(name)) {
        return field.stringValue();
      }
    }
    return null;
  }

  /** Its fields, in the order in which they were put. */
  public List<Field> getFields() {
    return Collections.unmodifiableList(fields);
  }
}
