import pressclip.monitor.*;

/** README's first article against its first query, by the jar. */
public class First {
  public static void main(String[] words) throws Exception {
    Document document = new Document();
    document.add(new TextField("text", "Tea prices rise", Field.Store.NO));
    try (Monitor monitor = new Monitor()) {
      monitor.register(new MonitorQuery("q1", "+tea pric*"));
      for (HighlightsMatch match : monitor.match(document, HighlightsMatch.MATCHER).getMatches()) {
        System.out.println(match.getQueryId());
      }
    }
  }
}
