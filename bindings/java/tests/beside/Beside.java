package beside;

import java.io.BufferedReader;
import java.io.IOException;
import java.io.InputStreamReader;
import java.nio.charset.StandardCharsets;
import java.util.ArrayList;
import java.util.Base64;
import java.util.Collection;
import java.util.List;
import java.util.TreeSet;
import org.apache.lucene.analysis.standard.StandardAnalyzer;
import org.apache.lucene.queryparser.classic.ParseException;
import org.apache.lucene.queryparser.classic.QueryParser;
import pressclip.monitor.MonitorQuery;

/**
 * Lucene's Monitor and the one here, in one JVM, on the queries and documents of standard input: a line each, its
 * letter (r or m) and its texts in Base64. Prints how many there were, how many alerts the one here gave, and of how
 * many documents the ids differ; the status is 1 where there are such, and 2 where one of both fails.
 */
public final class Beside {
  private final StandardAnalyzer analyzer = new StandardAnalyzer();
  private final org.apache.lucene.monitor.Monitor lucene = new org.apache.lucene.monitor.Monitor(analyzer);
  private final pressclip.monitor.Monitor here = new pressclip.monitor.Monitor();
  private final QueryParser parser = new QueryParser("text", analyzer);
  private int alerts;

  private Beside() throws IOException {
    parser.setSplitOnWhitespace(true);
    parser.setAutoGeneratePhraseQueries(true);
  }

  private void register(List<List<String>> queries) throws IOException, ParseException {
    List<org.apache.lucene.monitor.MonitorQuery> theirs = new ArrayList<>();
    List<MonitorQuery> own = new ArrayList<>();
    for (List<String> query : queries) {
      theirs.add(new org.apache.lucene.monitor.MonitorQuery(query.get(0), parser.parse(query.get(1))));
      own.add(new MonitorQuery(query.get(0), query.get(1)));
    }
    lucene.register(theirs);
    here.register(own);
  }

  private Collection<String> idsOfLucene(List<String> texts) throws IOException {
    org.apache.lucene.document.Document document = new org.apache.lucene.document.Document();
    for (int place = 0; place < texts.size(); place += 2) {
      document.add(new org.apache.lucene.document.TextField(texts.get(place), texts.get(place + 1),
          org.apache.lucene.document.Field.Store.NO));
    }
    Collection<String> ids = new TreeSet<>();
    lucene.match(document, org.apache.lucene.monitor.QueryMatch.SIMPLE_MATCHER).getMatches()
        .forEach(match -> ids.add(match.getQueryId()));
    return ids;
  }

  private Collection<String> idsOfHere(List<String> texts) throws IOException {
    pressclip.monitor.Document document = new pressclip.monitor.Document();
    for (int place = 0; place < texts.size(); place += 2) {
      document.add(new pressclip.monitor.TextField(texts.get(place), texts.get(place + 1),
          pressclip.monitor.Field.Store.NO));
    }
    Collection<String> ids = new TreeSet<>();
    here.match(document, pressclip.monitor.QueryMatch.SIMPLE_MATCHER).getMatches()
        .forEach(match -> ids.add(match.getQueryId()));
    alerts += ids.size();
    return ids;
  }

  private static List<String> texts(String line) {
    List<String> texts = new ArrayList<>();
    for (String part : line.substring(2).split(" ")) {
      texts.add(new String(Base64.getDecoder().decode(part), StandardCharsets.UTF_8));
    }
    return texts;
  }

  /** Compares both. A thread of Lucene's Monitor would keep a program alive whose main thread has failed. */
  public static void main(String[] words) {
    int status = 2;
    try {
      status = new Beside().compared() == 0 ? 0 : 1;
    } catch (IOException | ParseException | RuntimeException | Error error) {
      error.printStackTrace();
    }
    System.exit(status);
  }

  /** Compares both on standard input, and gives of how many documents they differ. */
  private int compared() throws IOException, ParseException {
    List<List<String>> queries = new ArrayList<>();
    List<List<String>> documents = new ArrayList<>();
    BufferedReader in = new BufferedReader(new InputStreamReader(System.in, StandardCharsets.US_ASCII));
    for (String line = in.readLine(); line != null; line = in.readLine()) {
      (line.charAt(0) == 'r' ? queries : documents).add(texts(line));
    }
    register(queries);
    int different = 0;
    for (List<String> document : documents) {
      Collection<String> theirs = idsOfLucene(document);
      Collection<String> own = idsOfHere(document);
      if (!theirs.equals(own)) {
        System.out.println("Lucene: " + theirs + ", here: " + own);
        different++;
      }
    }
    System.out.println(queries.size() + " queries, " + documents.size() + " documents, " + alerts + " alerts, "
        + different + " different");
    lucene.close();
    here.close();
    return different;
  }
}
