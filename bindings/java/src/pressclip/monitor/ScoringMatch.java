package pressclip.monitor;

/** Lucene's match with a score. A query holds or does not, so it is refused. */
public final class ScoringMatch extends QueryMatch {
  /** A match by it is refused. */
  public static final MatcherFactory<ScoringMatch> DEFAULT_MATCHER =
      new MatcherFactory<>("a match has no score here: use QueryMatch.SIMPLE_MATCHER or HighlightsMatch.MATCHER");

  private ScoringMatch(String queryId) {
    super(queryId);
  }
}
