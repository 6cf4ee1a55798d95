package pressclip.monitor;

/** Lucene's match with the explanation of its score. A query has no score, so it is refused. */
public final class ExplainingMatch extends QueryMatch {
  /** A match by it is refused. */
  public static final MatcherFactory<ExplainingMatch> MATCHER =
      new MatcherFactory<>("a match has no score to explain here: use HighlightsMatch.MATCHER for where a query holds");

  private ExplainingMatch(String queryId) {
    super(queryId);
  }
}
