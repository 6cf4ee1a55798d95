import com.fasterxml.jackson.core.JsonFactory;
import com.fasterxml.jackson.core.JsonParser;
import com.fasterxml.jackson.core.JsonToken;
import java.io.FileDescriptor;
import java.io.FileOutputStream;
import java.io.IOException;
import java.io.OutputStream;
import java.nio.charset.StandardCharsets;
import java.util.ArrayList;
import java.util.HashSet;
import java.util.List;
import java.util.Set;
import java.util.concurrent.TimeUnit;
import org.apache.lucene.analysis.Analyzer;
import org.apache.lucene.analysis.LowerCaseFilter;
import org.apache.lucene.analysis.TokenStream;
import org.apache.lucene.analysis.Tokenizer;
import org.apache.lucene.analysis.standard.StandardTokenizer;
import org.apache.lucene.document.Document;
import org.apache.lucene.document.Field;
import org.apache.lucene.document.TextField;
import org.apache.lucene.monitor.Monitor;
import org.apache.lucene.monitor.MonitorConfiguration;
import org.apache.lucene.monitor.MonitorQuery;
import org.apache.lucene.monitor.QueryMatch;
import org.apache.lucene.queryparser.classic.QueryParser;
import org.apache.lucene.search.BooleanQuery;
import org.apache.lucene.search.IndexSearcher;

/**
 * Lucene's own Monitor behind the lines that bench/run sends: they register, match, delete and count, and are taken to be
 * well formed. One thread reads, matches and answers. Ids are taken to need no escapes.
 */
public final class MonitorLines {
  private final Monitor monitor;
  private final QueryParser parser;
  private final Set<String> ids = new HashSet<>();

  private MonitorLines() throws IOException {
    // Lucene's cache of queries costs more here than it spares, and nothing is purged by a clock.
    IndexSearcher.setDefaultQueryCache(null);
    BooleanQuery.setMaxClauseCount(1 << 20);
    MonitorConfiguration configuration = new MonitorConfiguration();
    configuration.setPurgeFrequency(3650, TimeUnit.DAYS);
    Analyzer analyzer = new Words();
    monitor = new Monitor(analyzer, configuration);
    parser = new QueryParser("text", analyzer);
    parser.setSplitOnWhitespace(true);
    parser.setAutoGeneratePhraseQueries(true);
  }

  /** Words of Unicode's annex 29 in lower case. */
  private static final class Words extends Analyzer {
    @Override
    protected TokenStreamComponents createComponents(String field) {
      Tokenizer words = new StandardTokenizer();
      return new TokenStreamComponents(words, new LowerCaseFilter(words));
    }

    @Override
    protected TokenStream normalize(String field, TokenStream words) {
      return new LowerCaseFilter(words);
    }
  }

  /** Answers the request whose object has begun. */
  private String answer(JsonParser request, long line) throws Exception {
    String reply = null;
    while (request.nextToken() != JsonToken.END_OBJECT) {
      String name = request.getCurrentName();
      request.nextToken();
      switch (name) {
        case "queries":
          reply = "{\"line\":" + line + ",\"registered\":" + register(request) + "}\n";
          break;
        case "ids":
          reply = "{\"deleted\":" + delete(request) + ",\"line\":" + line + "}\n";
          break;
        case "articles":
          reply = "{\"alerts\":[" + alerts(request) + "],\"line\":" + line + ",\"notes\":[]}\n";
          break;
        default:
          request.skipChildren();
      }
    }
    return reply != null ? reply : "{\"count\":" + ids.size() + ",\"line\":" + line + "}\n";
  }

  private int register(JsonParser request) throws Exception {
    List<MonitorQuery> queries = new ArrayList<>();
    while (request.nextToken() == JsonToken.START_OBJECT) {
      String id = null;
      String text = null;
      while (request.nextToken() != JsonToken.END_OBJECT) {
        String name = request.getCurrentName();
        String value = request.nextTextValue();
        if (name.equals("id")) {
          id = value;
        } else if (name.equals("query")) {
          text = value;
        }
      }
      queries.add(new MonitorQuery(id, parser.parse(text)));
      ids.add(id);
    }
    monitor.register(queries);
    return queries.size();
  }

  private int delete(JsonParser request) throws IOException {
    List<String> there = new ArrayList<>();
    while (request.nextToken() != JsonToken.END_ARRAY) {
      if (ids.remove(request.getText())) {
        there.add(request.getText());
      }
    }
    monitor.deleteById(there);
    return there.size();
  }

  private String alerts(JsonParser request) throws IOException {
    StringBuilder alerts = new StringBuilder();
    while (request.nextToken() == JsonToken.START_OBJECT) {
      String id = null;
      Document article = new Document();
      while (request.nextToken() != JsonToken.END_OBJECT) {
        boolean isId = request.getCurrentName().equals("id");
        request.nextToken();
        if (isId) {
          id = request.getText();
        } else {
          addFields(request, article);
        }
      }
      alerts.append(alerts.length() == 0 ? "" : ",").append("{\"article\":\"").append(id);
      alerts.append("\",\"queries\":[").append(found(article)).append("]}");
    }
    return alerts.toString();
  }

  private static void addFields(JsonParser request, Document article) throws IOException {
    while (request.nextToken() != JsonToken.END_OBJECT) {
      String name = request.getCurrentName();
      article.add(new TextField(name, request.nextTextValue(), Field.Store.NO));
    }
  }

  /** The ids of the queries that hold of an article, in order. */
  private String found(Document article) throws IOException {
    List<String> found = new ArrayList<>();
    for (QueryMatch match : monitor.match(article, QueryMatch.SIMPLE_MATCHER).getMatches()) {
      found.add(match.getQueryId());
    }
    found.sort(null);
    return found.isEmpty() ? "" : "\"" + String.join("\",\"", found) + "\"";
  }

  public static void main(String[] words) throws Exception {
    MonitorLines lines = new MonitorLines();
    OutputStream out = new FileOutputStream(FileDescriptor.out);
    JsonParser requests = new JsonFactory().createParser(System.in);
    for (long line = 1; requests.nextToken() != null; line++) {
      out.write(lines.answer(requests, line).getBytes(StandardCharsets.UTF_8));
    }
    lines.monitor.close();
  }
}
