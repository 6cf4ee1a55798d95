package pressclip.monitor;

import java.util.Collection;
import java.util.Collections;
import java.util.Map;
import java.util.concurrent.TimeUnit;

/** The queries that hold of a document. */
public class MatchingQueries<T extends QueryMatch> {
  private final Map<String, T> matches;
  private final long asked;
  private final long nanoseconds;

  MatchingQueries(Map<String, T> matches, long asked, long nanoseconds) {
    this.matches = matches;
    this.asked = asked;
    this.nanoseconds = nanoseconds;
  }

  /** What there is of a query, or null where it does not hold. */
  public T matches(String queryId) {
    return matches.get(queryId);
  }

  /** All matches, in the byte order of their queries' ids. */
  public Collection<T> getMatches() {
    return Collections.unmodifiableCollection(matches.values());
  }

  /** How many queries hold. */
  public int getMatchCount() {
    return matches.size();
  }

  /** 0: candidates are found by an index, and no query is built for that. */
  public long getQueryBuildTime() {
    return 0;
  }

  /** How long the match took, in milliseconds. */
  public long getSearchTime() {
    return TimeUnit.NANOSECONDS.toMillis(nanoseconds);
  }

  /** How long the match took, in nanoseconds. */
  public long getSearchNanoseconds() {
    return nanoseconds;
  }

  /** How many queries were tried on the document. */
  public int getQueriesRun() {
    return Math.toIntExact(asked);
  }

  /** No errors: a match is refused as a whole, by an exception. */
  public Map<String, Exception> getErrors() {
    return Collections.emptyMap();
  }
}
