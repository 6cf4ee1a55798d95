package pressclip.monitor;

import java.util.Objects;

/** A query by its text; {@link QueryParser} makes one that is known to be a query. */
public final class Query {
  private final String text;

  /** A text, which is looked at when the query is registered. */
  public Query(String text) {
    this.text = Objects.requireNonNull(text, "a query is null");
  }

  @Override
  public boolean equals(Object other) {
    return other instanceof Query && text.equals(((Query) other).text);
  }

  @Override
  public int hashCode() {
    return text.hashCode();
  }

  /** Its text. */
  @Override
  public String toString() {
    return text;
  }
}
