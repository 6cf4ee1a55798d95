package pressclip.monitor;

import java.io.Closeable;

/** How texts are cut into words. There is one way, {@link StandardAnalyzer}, which the proofs are about. */
public abstract sealed class Analyzer implements Closeable permits StandardAnalyzer {
  Analyzer() {}

  /** Does nothing. */
  @Override
  public void close() {}
}
