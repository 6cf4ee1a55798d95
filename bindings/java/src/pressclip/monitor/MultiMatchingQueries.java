package pressclip.monitor;

import java.util.Collection;
import java.util.Collections;
import java.util.List;
import java.util.Map;
import java.util.concurrent.TimeUnit;

/** The queries that hold of each of several documents. */
public class MultiMatchingQueries<T extends QueryMatch> {
  private final List<MatchingQueries<T>> each;

  MultiMatchingQueries(List<MatchingQueries<T>> each) {
    this.each = each;
  }

  /** What there is of a query in the document with this number, or null where it does not hold. */
  public T matches(String queryId, int docId) {
    return each.get(docId).matches(queryId);
  }

  /** The matches of the document with this number, in the byte order of their queries' ids. */
  public Collection<T> getMatches(int docId) {
    return each.get(docId).getMatches();
  }

  /** How many queries hold of the document with this number. */
  public int getMatchCount(int docId) {
    return each.get(docId).getMatchCount();
  }

  /** How many documents were matched. */
  public int getBatchSize() {
    return each.size();
  }

  /** 0: candidates are found by an index, and no query is built for that. */
  public long getQueryBuildTime() {
    return 0;
  }

  /** How long the matches took together, in milliseconds. */
  public long getSearchTime() {
    return TimeUnit.NANOSECONDS.toMillis(each.stream().mapToLong(MatchingQueries::getSearchNanoseconds).sum());
  }

  /** How many queries were tried on the documents together. */
  public int getQueriesRun() {
    return Math.toIntExact(each.stream().mapToLong(MatchingQueries::getQueriesRun).sum());
  }

  /** No errors: a match is refused as a whole, by an exception. */
  public Map<String, Exception> getErrors() {
    return Collections.emptyMap();
  }
}
