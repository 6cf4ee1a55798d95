package pressclip.monitor;

import java.util.Map;
import java.util.Set;
import java.util.function.BiFunction;

/** What a match is to tell of each query that holds. Those that there are stand in {@code MATCHER} constants. */
public final class MatcherFactory<T extends QueryMatch> {
  final boolean wantsHits;
  private final BiFunction<String, Map<String, Set<HighlightsMatch.Hit>>, T> maker;
  private final String refusal;

  MatcherFactory(boolean wantsHits, BiFunction<String, Map<String, Set<HighlightsMatch.Hit>>, T> maker) {
    this.wantsHits = wantsHits;
    this.maker = maker;
    this.refusal = null;
  }

  /** One that Lucene has and that is refused. */
  MatcherFactory(String refusal) {
    this.wantsHits = false;
    this.maker = null;
    this.refusal = refusal;
  }

  /** Throws where it is refused. */
  void check() {
    if (refusal != null) {
      throw new UnsupportedOperationException(refusal);
    }
  }

  T make(String id, Map<String, Set<HighlightsMatch.Hit>> hits) {
    return maker.apply(id, hits);
  }
}
