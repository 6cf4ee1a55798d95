package pressclip.monitor;

import java.util.Objects;

/** Looks whether texts are queries in the classic syntax, without some forms: docs/EXPLAIN.md says which. */
public class QueryParser {
  private static final String FIELD = "text";

  /** A parser for the one default field, {@code text}; UnsupportedOperationException for another one. */
  public QueryParser(String field, Analyzer analyzer) {
    Objects.requireNonNull(field, "a field's name is null");
    Objects.requireNonNull(analyzer, "an analyzer is null");
    if (!field.equals(FIELD)) {
      throw new UnsupportedOperationException(
          "a query without a field's name searches text here, and no other field: write " + field + ":(..)");
    }
  }

  /** The text as a query. ParseException where it is none, which says why and where. */
  public Query parse(String text) throws ParseException {
    Fault fault = Fault.of(text);
    if (fault != null) {
      throw new ParseException(text, fault);
    }
    return new Query(text);
  }
}
