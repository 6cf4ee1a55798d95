package pressclip.monitor;

/** The words of Unicode's annex 29, folded, and no stop words. */
public final class StandardAnalyzer extends Analyzer {
  /** The one way to cut texts. */
  public StandardAnalyzer() {}
}
