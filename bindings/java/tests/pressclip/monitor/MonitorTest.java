package pressclip.monitor;

import static org.junit.Assert.assertEquals;
import static org.junit.Assert.assertNull;
import static org.junit.Assert.assertThrows;
import static org.junit.Assert.assertTrue;

import java.nio.file.Files;
import java.nio.file.Path;
import java.util.ArrayList;
import java.util.Arrays;
import java.util.List;
import java.util.Map;
import java.util.Set;
import java.util.stream.Collectors;
import org.junit.After;
import org.junit.Test;
import org.junit.function.ThrowingRunnable;
import pressclip.monitor.HighlightsMatch.Hit;

/** Each call of a monitor with right, wrong and hostile arguments. */
public class MonitorTest {
  private final Monitor monitor = new Monitor(new StandardAnalyzer());

  @After
  public void close() {
    monitor.close();
  }

  private static Document document(String... namesAndTexts) {
    Document document = new Document();
    for (int place = 0; place < namesAndTexts.length; place += 2) {
      document.add(new TextField(namesAndTexts[place], namesAndTexts[place + 1], Field.Store.NO));
    }
    return document;
  }

  private List<String> matched(Document document) throws Exception {
    return monitor.match(document, QueryMatch.SIMPLE_MATCHER).getMatches().stream()
        .map(QueryMatch::getQueryId).collect(Collectors.toList());
  }

  private static void refused(String word, int which, ThrowingRunnable call) {
    RefusedException error = assertThrows(RefusedException.class, call);
    assertEquals(word + " " + which, error.getWord() + " " + error.getWhich());
    assertTrue(error.getMessage(), error.getMessage().length() > word.length());
  }

  @Test
  public void theVersionIsThatOfTheRepository() throws Exception {
    assertEquals(Files.readString(Path.of("../../VERSION")), Monitor.version() + "\n");
  }

  @Test
  public void queriesThatHoldAreGivenInTheByteOrderOfTheirIds() throws Exception {
    monitor.register(new MonitorQuery("é", "tea"), new MonitorQuery("b", "+tea pric*"), new MonitorQuery("a", "milk"),
        new MonitorQuery("B", "title:markets"), new MonitorQuery("\uD83C\uDF75", "-milk tea"));
    assertEquals(Arrays.asList("B", "b", "é", "\uD83C\uDF75"),
        matched(document("text", "Tea prices rise", "title", "Markets")));
    assertEquals(List.of(), matched(document()));
    assertEquals(List.of(), matched(document("text", "")));
  }

  @Test
  public void aMatchTellsOfEachQuery() throws Exception {
    monitor.register(new MonitorQuery("a", "tea"), new MonitorQuery("b", "milk"));
    MatchingQueries<QueryMatch> found = monitor.match(document("text", "tea"), QueryMatch.SIMPLE_MATCHER);
    assertEquals(new QueryMatch("a"), found.matches("a"));
    assertNull(found.matches("b"));
    assertEquals(1, found.getMatchCount());
    assertTrue(found.getQueriesRun() >= 1 && found.getSearchNanoseconds() > 0);
    assertEquals(Map.of(), found.getErrors());
    assertThrows(UnsupportedOperationException.class, () -> found.getMatches().clear());
  }

  @Test
  public void hitsAreWordsWithTheirCharacters() throws Exception {
    monitor.register(new MonitorQuery("q", "tea title:caf*"));
    Document document = document("text", "\uD83C\uDF75 thé, Tea: tea", "title", "Le Café");
    HighlightsMatch found = monitor.match(document, HighlightsMatch.MATCHER).matches("q");
    assertEquals(Set.of("text", "title"), found.getFields());
    List<String> words = new ArrayList<>();
    for (String field : found.getFields()) {
      for (Hit hit : found.getHits(field)) {
        words.add(document.get(field).substring(hit.startOffset, hit.endOffset));
      }
    }
    assertEquals(Set.of("Tea", "tea", "Café"), Set.copyOf(words));
    assertEquals(3, found.getHitCount());
    assertEquals(List.of(new Hit(1, 3, 1, 7)), List.copyOf(found.getHits("title")));
    assertEquals(List.of(), List.copyOf(found.getHits("author")));
  }

  @Test
  public void documentsAreMatchedTogether() throws Exception {
    monitor.register(new MonitorQuery("a", "tea"), new MonitorQuery("b", "milk tea"));
    Document[] documents = {document("text", "milk"), document("text", "Tea"), document("title", "tea")};
    MultiMatchingQueries<QueryMatch> found = monitor.match(documents, QueryMatch.SIMPLE_MATCHER);
    assertEquals(3, found.getBatchSize());
    assertEquals(List.of(new QueryMatch("b")), List.copyOf(found.getMatches(0)));
    assertEquals(new QueryMatch("a"), found.matches("a", 1));
    assertEquals("2 0", found.getMatchCount(1) + " " + found.getMatchCount(2));
    assertEquals(0, monitor.match(new Document[0], QueryMatch.SIMPLE_MATCHER).getBatchSize());
    refused("limit", 1, () -> monitor.match(
        new Document[] {document(), document("no name", "")}, QueryMatch.SIMPLE_MATCHER));
  }

  @Test
  public void queriesAreShownCountedAndTakenOut() throws Exception {
    monitor.register(List.of(new MonitorQuery("b", "tea"), new MonitorQuery("a", "milk"), new MonitorQuery("c", "x")));
    assertEquals(List.of("a", "b", "c"), List.copyOf(monitor.getQueryIds()));
    assertEquals(new MonitorQuery("b", "tea"), monitor.getQuery("b"));
    assertNull(monitor.getQuery("d"));
    monitor.register(new MonitorQuery("b", "coffee"));
    assertEquals("coffee", monitor.getQuery("b").getQueryString());
    monitor.deleteById("a", "d");
    assertEquals(2, monitor.getQueryCount());
    monitor.purgeCache();
    assertEquals(List.of("b"), matched(document("text", "Coffee, tea")));
    monitor.clear();
    assertEquals(0, monitor.getQueryCount());
    assertEquals(Set.of(), monitor.getQueryIds());
  }

  @Test
  public void manyAreRegisteredInPartsAndTheirIdsComeInPages() throws Exception {
    List<MonitorQuery> queries = new ArrayList<>();
    List<String> ids = new ArrayList<>();
    List<Integer> parts = new ArrayList<>();
    for (int number = 100_000; number < 125_000; number++) {
      ids.add("q" + number);
      queries.add(new MonitorQuery("q" + number, "tea"));
    }
    monitor.addQueryIndexUpdateListener(new MonitorUpdateListener() {
      @Override
      public void afterUpdate(List<MonitorQuery> updates) {
        parts.add(updates.size());
      }
    });
    monitor.register(queries);
    assertEquals(ids, List.copyOf(monitor.getQueryIds()));
    assertEquals(25_000, parts.stream().mapToInt(size -> size).sum());
    queries.set(2_000, new MonitorQuery("q", "("));
    assertEquals(2_000, assertThrows(QueryException.class, () -> monitor.register(queries)).getWhich());
  }

  @Test
  public void aRefusedQueryLeavesAllAsItWas() throws Exception {
    monitor.register(new MonitorQuery("a", "tea"));
    QueryException error = assertThrows(QueryException.class, () -> monitor.register(
        new MonitorQuery("b", "milk"), new MonitorQuery("a", "é (tea"), new MonitorQuery("", "tea")));
    assertEquals("query 1 Structure 6", error.getWord() + " " + error.getWhich() + " " + error.getFault() + " "
        + error.getAt());
    assertEquals(Set.of("a"), monitor.getQueryIds());
    assertEquals("tea", monitor.getQuery("a").getQueryString());
    refused("limit", 1, () -> monitor.register(new MonitorQuery("b", "milk"), new MonitorQuery("", "tea")));
    refused("limit", 0, () -> monitor.register(new MonitorQuery("q".repeat(257), "tea")));
    refused("limit", 0, () -> monitor.register(new MonitorQuery("é".repeat(129), "tea")));
    refused("limit", 1, () -> monitor.deleteById("a", ""));
    refused("limit", 0, () -> monitor.getQuery(""));
    assertEquals(Set.of("a"), monitor.getQueryIds());
    monitor.register(List.of());
    monitor.register(new MonitorQuery("é".repeat(128), "tea"));
    assertEquals(2, monitor.getQueryCount());
  }

  @Test
  public void aBadDocumentIsRefused() {
    refused("limit", 0, () -> matched(document("", "tea")));
    refused("limit", 0, () -> matched(document("text", "tea", "text", "milk")));
    Document wide = document();
    for (int number = 0; number < 17; number++) {
      wide.add(new TextField("f" + number, "tea", Field.Store.YES));
    }
    refused("limit", 0, () -> matched(wide));
    assertThrows(IllegalArgumentException.class, () -> matched(document("text", "tea \uD83C")));
  }

  @Test
  public void halfOfASurrogatePairIsNoText() throws Exception {
    for (String text : List.of("\uD83C", "\uDF75 tea", "tea \uD83Ctea")) {
      assertThrows(IllegalArgumentException.class, () -> monitor.register(new MonitorQuery("a", text)));
      assertThrows(IllegalArgumentException.class, () -> monitor.register(new MonitorQuery(text, "tea")));
      assertThrows(IllegalArgumentException.class, () -> monitor.deleteById(text));
      assertThrows(IllegalArgumentException.class, () -> monitor.getQuery(text));
    }
    assertEquals(0, monitor.getQueryCount());
  }

  @Test
  public void textsWithAByteZeroAreTexts() throws Exception {
    monitor.register(new MonitorQuery("a\0b", "tea"), new MonitorQuery("\0", "tea"), new MonitorQuery("a\0", "milk"));
    assertEquals(Arrays.asList("\0", "a\0b"), matched(document("text", "milky\0tea")));
    assertEquals(Arrays.asList("\0", "a\0", "a\0b"), List.copyOf(monitor.getQueryIds()));
  }

  @Test
  public void nullIsRefused() throws Exception {
    assertThrows(NullPointerException.class, () -> new MonitorQuery(null, "tea"));
    assertThrows(NullPointerException.class, () -> new MonitorQuery("a", (String) null));
    assertThrows(NullPointerException.class, () -> new TextField("text", null, Field.Store.NO));
    assertThrows(NullPointerException.class, () -> new Document().add(null));
    assertThrows(NullPointerException.class, () -> new Monitor((Analyzer) null));
    assertThrows(NullPointerException.class, () -> monitor.register(new MonitorQuery("a", "tea"), null));
    assertThrows(NullPointerException.class, () -> monitor.deleteById("a", null));
    assertThrows(NullPointerException.class, () -> monitor.getQuery(null));
    assertThrows(NullPointerException.class, () -> monitor.match(document(), null));
    assertThrows(NullPointerException.class, () -> monitor.match((Document) null, QueryMatch.SIMPLE_MATCHER));
    assertThrows(NullPointerException.class,
        () -> monitor.match(new Document[] {document(), null}, QueryMatch.SIMPLE_MATCHER));
    assertThrows(NullPointerException.class, () -> monitor.addQueryIndexUpdateListener(null));
    assertEquals(0, monitor.getQueryCount());
  }

  private static void unsupported(String word, ThrowingRunnable call) {
    String says = assertThrows(UnsupportedOperationException.class, call).getMessage();
    assertTrue(says, says.contains(word) && says.split(" ").length > 6);
  }

  @Test
  public void whatTheProfileLeavesOutIsRefusedByASentence() throws Exception {
    unsupported("metadata", () -> new MonitorQuery("a", new Query("tea"), "tea", Map.of("language", "en")));
    new MonitorQuery("a", new Query("tea"), "tea", Map.of());
    unsupported("score", () -> monitor.match(document(), ScoringMatch.DEFAULT_MATCHER));
    unsupported("score", () -> monitor.match(new Document[0], ExplainingMatch.MATCHER));
    unsupported("presearcher", () -> new Monitor(new StandardAnalyzer(), Presearcher.NO_FILTERING));
    unsupported("field", () -> new QueryParser("title", new StandardAnalyzer()));
    try (Monitor plain = new Monitor(false)) {
      plain.register(new MonitorQuery("a", "tea"));
      assertEquals(1, plain.match(document("text", "tea"), QueryMatch.SIMPLE_MATCHER).getMatchCount());
      unsupported("hits", () -> plain.match(document(), HighlightsMatch.MATCHER));
    }
  }

  @Test
  public void aParserSaysWhyATextIsNoQuery() throws Exception {
    QueryParser parser = new QueryParser("text", new StandardAnalyzer());
    assertEquals(new Query("+tea pric*"), parser.parse("+tea pric*"));
    String says = assertThrows(ParseException.class, () -> parser.parse("\uD83C\uDF75 the (tea")).getMessage();
    assertTrue(says, says.startsWith("Cannot parse '\uD83C\uDF75 the (tea': Structure at 11: "));
  }

  @Test
  public void listenersHearOfEachChangeOnce() throws Exception {
    List<String> heard = new ArrayList<>();
    monitor.addQueryIndexUpdateListener(new MonitorUpdateListener() {
      @Override
      public void afterUpdate(List<MonitorQuery> updates) {
        heard.add("update " + updates);
      }

      @Override
      public void afterDelete(List<String> queryIds) {
        heard.add("delete " + queryIds);
      }

      @Override
      public void afterClear() {
        heard.add("clear");
      }

      @Override
      public void onPurge() {
        heard.add("purge");
      }
    });
    monitor.register(new MonitorQuery("a", "tea"), new MonitorQuery("b", "milk"));
    assertThrows(QueryException.class, () -> monitor.register(new MonitorQuery("c", "(")));
    monitor.deleteById("a");
    monitor.purgeCache();
    monitor.clear();
    assertEquals(List.of("update [a: tea, b: milk]", "delete [a]", "purge", "clear"), heard);
  }

  @Test
  public void aClosedMonitorRefusesEachCall() throws Exception {
    monitor.register(new MonitorQuery("a", "tea"));
    monitor.close();
    monitor.close();
    List<ThrowingRunnable> calls = List.of(() -> monitor.register(new MonitorQuery("a", "tea")),
        () -> monitor.register(List.of()), () -> monitor.deleteById("a"), () -> monitor.deleteById(List.of()),
        monitor::clear, monitor::purgeCache, () -> monitor.getQuery("a"),
        monitor::getQueryCount, monitor::getQueryIds, () -> matched(document()),
        () -> monitor.match(new Document[0], HighlightsMatch.MATCHER));
    for (ThrowingRunnable call : calls) {
      assertThrows(AlreadyClosedException.class, call);
    }
  }
}
