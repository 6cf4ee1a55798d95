package pressclip.monitor;

import java.util.Collections;
import java.util.Map;
import java.util.Objects;

/** A query and the id under which it is registered. */
public class MonitorQuery {
  private final String id;
  private final Query query;

  /** A query under an id. */
  public MonitorQuery(String id, Query query) {
    this.id = Objects.requireNonNull(id, "an id is null");
    this.query = Objects.requireNonNull(query, "a query is null");
  }

  /** A query under an id, by its text. */
  public MonitorQuery(String id, String query) {
    this(id, new Query(query));
  }

  /** A query as Lucene's Monitor has it. UnsupportedOperationException where there are metadata. */
  public MonitorQuery(String id, Query query, String queryString, Map<String, String> metadata) {
    this(id, query);
    if (!metadata.isEmpty()) {
      throw new UnsupportedOperationException("a query has no metadata here: keep them by its id beside the Monitor");
    }
  }

  /** Its id. */
  public String getId() {
    return id;
  }

  /** The query. */
  public Query getQuery() {
    return query;
  }

  /** The query's text. */
  public String getQueryString() {
    return query.toString();
  }

  /** No metadata. */
  public Map<String, String> getMetadata() {
    return Collections.emptyMap();
  }

  @Override
  public boolean equals(Object other) {
    return other instanceof MonitorQuery && id.equals(((MonitorQuery) other).id)
        && query.equals(((MonitorQuery) other).query);
  }

  @Override
  public int hashCode() {
    return Objects.hash(id, query);
  }

  @Override
  public String toString() {
    return id + ": " + query;
  }
}
