package pressclip.monitor;

/** What picks the queries that a document is tried on. The engine has its own, so each of these is refused. */
public class Presearcher {
  /** Lucene's name for none at all. */
  public static final Presearcher NO_FILTERING = new Presearcher();

  /** A monitor refuses it. */
  public Presearcher() {}
}
