package pressclip.monitor;

import java.io.BufferedReader;
import java.io.IOException;
import java.io.InputStreamReader;
import java.io.PrintStream;
import java.nio.charset.StandardCharsets;
import java.util.ArrayList;
import java.util.Base64;
import java.util.List;
import java.util.stream.Collectors;

/**
 * Plays calls, one a line: its letter and its texts in Base64, all with a blank between. Prints a line for each: what
 * the call gives, or why it is refused.
 */
public final class Replay {
  private Monitor monitor = new Monitor();

  private static String in64(String text) {
    return Base64.getEncoder().encodeToString(text.getBytes(StandardCharsets.UTF_8));
  }

  private static String listed(Iterable<String> texts) {
    List<String> all = new ArrayList<>();
    texts.forEach(text -> all.add(in64(text)));
    return ("ids " + String.join(" ", all)).trim();
  }

  private static Document document(List<String> texts) {
    Document document = new Document();
    for (int place = 0; place < texts.size(); place += 2) {
      document.add(new TextField(texts.get(place), texts.get(place + 1), Field.Store.NO));
    }
    return document;
  }

  private String match(List<String> texts) throws IOException {
    MatchingQueries<HighlightsMatch> found = monitor.match(document(texts), HighlightsMatch.MATCHER);
    List<String> each = new ArrayList<>();
    for (HighlightsMatch match : found.getMatches()) {
      String hits = match.getFields().stream()
          .flatMap(field -> match.getHits(field).stream().map(hit -> field + "@" + hit.startPosition))
          .collect(Collectors.joining(","));
      each.add(in64(match.getQueryId()) + "=" + hits);
    }
    return ("found " + String.join(" ", each)).trim();
  }

  private String register(List<String> texts) throws IOException {
    List<MonitorQuery> queries = new ArrayList<>();
    for (int place = 0; place < texts.size(); place += 2) {
      queries.add(new MonitorQuery(texts.get(place), texts.get(place + 1)));
    }
    monitor.register(queries);
    return "ok";
  }

  private String call(char letter, List<String> texts) throws IOException {
    switch (letter) {
      case 'n':
        monitor.close();
        monitor = new Monitor();
        return "ok";
      case 'r':
        return register(texts);
      case 'd':
        monitor.deleteById(texts);
        return "ok";
      case 'x':
        monitor.clear();
        return "ok";
      case 'p':
        monitor.purgeCache();
        return "ok";
      case 'c':
        return "count " + monitor.getQueryCount();
      case 'i':
        return listed(monitor.getQueryIds());
      case 's':
        MonitorQuery query = monitor.getQuery(texts.get(0));
        return query == null ? "none" : "query " + in64(query.getQueryString());
      case 'm':
        return match(texts);
      default:
        throw new IllegalArgumentException("no such call: " + letter);
    }
  }

  private String answer(String line) throws IOException {
    String[] parts = line.split(" ");
    List<String> texts = new ArrayList<>();
    for (int place = 1; place < parts.length; place++) {
      // An empty text is a lone =.
      byte[] text = parts[place].equals("=") ? new byte[0] : Base64.getDecoder().decode(parts[place]);
      texts.add(new String(text, StandardCharsets.UTF_8));
    }
    try {
      return call(line.charAt(0), texts);
    } catch (RefusedException error) {
      return "refused " + error.getWord() + " " + error.getWhich();
    }
  }

  /** Plays what is given. */
  public static void main(String[] words) throws IOException {
    Replay replay = new Replay();
    BufferedReader in = new BufferedReader(new InputStreamReader(System.in, StandardCharsets.US_ASCII));
    PrintStream out = new PrintStream(System.out, false, StandardCharsets.US_ASCII);
    for (String line = in.readLine(); line != null; line = in.readLine()) {
      out.println(replay.answer(line));
    }
    out.flush();
  }
}
