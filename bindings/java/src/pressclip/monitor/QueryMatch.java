package pressclip.monitor;

import java.util.Objects;

/** A query that holds of a document. */
public class QueryMatch {
  /** Gives the ids of the queries that hold. */
  public static final MatcherFactory<QueryMatch> SIMPLE_MATCHER =
      new MatcherFactory<>(false, (id, hits) -> new QueryMatch(id));

  private final String queryId;

  /** The query with this id holds. */
  public QueryMatch(String queryId) {
    this.queryId = Objects.requireNonNull(queryId, "an id is null");
  }

  /** The query's id. */
  public String getQueryId() {
    return queryId;
  }

  @Override
  public boolean equals(Object other) {
    return other != null && getClass() == other.getClass() && queryId.equals(((QueryMatch) other).queryId);
  }

  @Override
  public int hashCode() {
    return queryId.hashCode();
  }

  @Override
  public String toString() {
    return "Match(query=" + queryId + ")";
  }
}
