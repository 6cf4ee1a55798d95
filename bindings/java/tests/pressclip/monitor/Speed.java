package pressclip.monitor;

import java.io.BufferedReader;
import java.io.IOException;
import java.io.InputStreamReader;
import java.nio.charset.StandardCharsets;
import java.util.ArrayList;
import java.util.Base64;
import java.util.List;
import java.util.concurrent.Callable;
import java.util.concurrent.ExecutorService;
import java.util.concurrent.Executors;
import java.util.concurrent.Future;

/**
 * How many documents a second one thread and several match on one monitor, while another registers a thousand queries a
 * second, each in its own place. Queries and documents are those of standard input: a line each, its letter (r or m)
 * and its texts in Base64. Words: how many threads, and seconds.
 */
public final class Speed {
  private static final int CHANGES_A_SECOND = 1_000;
  private final Monitor monitor = new Monitor(false);
  private final List<MonitorQuery> queries = new ArrayList<>();
  private final List<Document> documents = new ArrayList<>();
  private volatile boolean over;

  private void read() throws IOException {
    BufferedReader in = new BufferedReader(new InputStreamReader(System.in, StandardCharsets.US_ASCII));
    for (String line = in.readLine(); line != null; line = in.readLine()) {
      List<String> texts = new ArrayList<>();
      for (String part : line.substring(2).split(" ")) {
        texts.add(new String(Base64.getDecoder().decode(part), StandardCharsets.UTF_8));
      }
      if (line.charAt(0) == 'r') {
        queries.add(new MonitorQuery(texts.get(0), texts.get(1)));
        continue;
      }
      Document document = new Document();
      for (int place = 0; place < texts.size(); place += 2) {
        document.add(new TextField(texts.get(place), texts.get(place + 1), Field.Store.NO));
      }
      documents.add(document);
    }
  }

  private long match(int first) throws IOException {
    long matched = 0;
    while (!over) {
      monitor.match(documents.get((int) ((first + matched) % documents.size())), QueryMatch.SIMPLE_MATCHER);
      matched++;
    }
    return matched;
  }

  private long change() throws Exception {
    long start = System.nanoTime();
    for (long changes = 0; !over; changes++) {
      monitor.register(queries.get((int) (changes % queries.size())));
      long due = start + changes * 1_000_000_000L / CHANGES_A_SECOND;
      Thread.sleep(Math.max(0, (due - System.nanoTime()) / 1_000_000));
    }
    return 0;
  }

  private double matchesASecond(int threads, int seconds) throws Exception {
    over = false;
    ExecutorService pool = Executors.newFixedThreadPool(threads + 1);
    List<Future<Long>> work = new ArrayList<>();
    Callable<Long> changing = this::change;
    work.add(pool.submit(changing));
    long start = System.nanoTime();
    for (int thread = 0; thread < threads; thread++) {
      int first = thread * documents.size() / threads;
      work.add(pool.submit(() -> match(first)));
    }
    Thread.sleep(seconds * 1_000L);
    over = true;
    long matched = 0;
    for (Future<Long> each : work) {
      matched += each.get();
    }
    double took = (System.nanoTime() - start) / 1e9;
    pool.shutdown();
    return matched / took;
  }

  /** Measures. */
  public static void main(String[] words) throws Exception {
    Speed speed = new Speed();
    speed.read();
    speed.monitor.register(speed.queries);
    int seconds = Integer.parseInt(words[1]);
    speed.matchesASecond(1, 1);
    double one = speed.matchesASecond(1, seconds);
    double many = speed.matchesASecond(Integer.parseInt(words[0]), seconds);
    System.out.printf("%.0f %.0f%n", one, many);
    speed.monitor.close();
  }
}
