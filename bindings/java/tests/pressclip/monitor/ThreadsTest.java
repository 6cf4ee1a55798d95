package pressclip.monitor;

import static org.junit.Assert.assertEquals;
import static org.junit.Assert.assertThrows;
import static org.junit.Assert.assertTrue;

import java.nio.file.Files;
import java.nio.file.Path;
import java.util.ArrayList;
import java.util.List;
import java.util.concurrent.Callable;
import java.util.concurrent.ExecutorService;
import java.util.concurrent.Executors;
import java.util.concurrent.Future;
import java.util.concurrent.atomic.AtomicInteger;
import org.junit.Test;

/** One monitor that threads share. */
public class ThreadsTest {
  private static final int THREADS = 8;
  private static final int CHANGES = 2_000;

  private static Document document(String text) {
    Document document = new Document();
    document.add(new TextField("text", text, Field.Store.NO));
    return document;
  }

  private static String id(int number) {
    return String.format("q%05d", number);
  }

  /** What all threads gave, after all of them ended. */
  private static <T> List<T> together(List<Callable<T>> work) throws Exception {
    ExecutorService threads = Executors.newFixedThreadPool(work.size());
    try {
      List<T> given = new ArrayList<>();
      for (Future<T> each : threads.invokeAll(work)) {
        given.add(each.get());
      }
      return given;
    } finally {
      threads.shutdownNow();
    }
  }

  /**
   * The queries 0, 1, 2 .. are registered in order, the even ones for tea and the odd ones for milk. So a match has to
   * give those below some bound, which lies between what was registered before it and what had begun after it.
   */
  private static int matchWhileItGrows(Monitor monitor, AtomicInteger before, AtomicInteger begun) throws Exception {
    int matches = 0;
    boolean even = Thread.currentThread().getId() % 2 == 0;
    while (before.get() < CHANGES) {
      int low = before.get();
      MatchingQueries<QueryMatch> found =
          monitor.match(document(even ? "tea" : "tea milk"), QueryMatch.SIMPLE_MATCHER);
      int high = begun.get();
      int count = found.getMatchCount();
      int step = even ? 2 : 1;
      assertTrue(low + " " + count + " " + high, (low + step - 1) / step <= count && count <= (high + step - 1) / step);
      int number = 0;
      for (QueryMatch match : found.getMatches()) {
        assertEquals(id(number), match.getQueryId());
        number += step;
      }
      matches++;
    }
    return matches;
  }

  @Test
  public void eachMatchIsThatOfAMomentWhileAnotherThreadRegisters() throws Exception {
    try (Monitor monitor = new Monitor(false)) {
      AtomicInteger before = new AtomicInteger();
      AtomicInteger begun = new AtomicInteger();
      List<Callable<Integer>> work = new ArrayList<>();
      for (int thread = 0; thread < THREADS; thread++) {
        work.add(() -> matchWhileItGrows(monitor, before, begun));
      }
      work.add(() -> {
        for (int number = 0; number < CHANGES; number++) {
          begun.incrementAndGet();
          monitor.register(new MonitorQuery(id(number), number % 2 == 0 ? "tea" : "milk"));
          before.incrementAndGet();
        }
        return 1;
      });
      for (int matches : together(work)) {
        assertTrue("no match", matches > 0);
      }
      assertEquals(CHANGES, monitor.getQueryCount());
    }
  }

  @Test
  public void aCloseWaitsForTheCallsThatAreInIt() throws Exception {
    for (int turn = 0; turn < 50; turn++) {
      Monitor monitor = new Monitor();
      monitor.register(new MonitorQuery("a", "tea"));
      List<Callable<Integer>> work = new ArrayList<>();
      for (int thread = 0; thread < THREADS; thread++) {
        work.add(() -> {
          assertThrows(AlreadyClosedException.class, () -> {
            while (true) {
              assertEquals(1, monitor.match(document("tea"), HighlightsMatch.MATCHER).matches("a").getHitCount());
            }
          });
          return 1;
        });
      }
      work.add(() -> {
        Thread.sleep(2);
        monitor.close();
        return 1;
      });
      assertEquals(THREADS + 1, together(work).size());
    }
  }

  private static long residentKibibytes() throws Exception {
    for (String line : Files.readAllLines(Path.of("/proc/self/status"))) {
      if (line.startsWith("VmRSS:")) {
        return Long.parseLong(line.replaceAll("\\D", ""));
      }
    }
    throw new AssertionError("no VmRSS");
  }

  /** Each has some 6 KiB, so without an end these would take 350 MB. */
  @Test
  public void whoeverForgetsToCloseLosesNoMemory() throws Exception {
    long before = residentKibibytes();
    for (int turn = 0; turn < 60_000; turn++) {
      new Monitor().register(new MonitorQuery("a", "tea"));
      if (turn % 3_000 == 0) {
        System.gc();
      }
    }
    long more = residentKibibytes() - before;
    assertTrue(more + " KiB more", more < 200_000);
  }
}
