package pressclip.monitor;

import com.sun.jna.Memory;
import com.sun.jna.Pointer;
import com.sun.jna.ptr.LongByReference;
import com.sun.jna.ptr.PointerByReference;
import java.io.Closeable;
import java.io.IOException;
import java.lang.ref.Cleaner;
import java.util.ArrayList;
import java.util.Arrays;
import java.util.Collections;
import java.util.LinkedHashSet;
import java.util.List;
import java.util.Objects;
import java.util.Set;
import java.util.concurrent.CopyOnWriteArrayList;

/**
 * Registered queries, which any number of threads may share.
 *
 * <p>Matches of several threads go side by side, and a change is in every match that begins after it. A call that is
 * refused changes nothing. After {@link #close} each call throws {@link AlreadyClosedException}. Where the library has
 * no memory, a call throws OutOfMemoryError; where a text has half of a surrogate pair, IllegalArgumentException; where
 * an argument is null, NullPointerException. No call throws the IOException that it declares: callers of Lucene's
 * Monitor expect it.
 */
public class Monitor implements Closeable {
  private static final Cleaner CLEANER = Cleaner.create();
  /** So many ids are asked for at once. */
  private static final long PAGE = 10_000;
  /** The most queries that one call registers. */
  private static final int PART = 1_024;
  /** The bytes of a pressclip_listing: three pointers and three sizes. */
  private static final int LISTING = 48;

  private final List<MonitorUpdateListener> listeners = new CopyOnWriteArrayList<>();
  private final boolean hits;
  private final Shared shared;
  private final Cleaner.Cleanable end;

  /** A monitor whose matches can tell where queries hold. */
  public Monitor() {
    this(true);
  }

  /** A monitor which can tell where queries hold, or one without hits, whose matches cost less. */
  public Monitor(boolean hits) {
    this.hits = hits;
    this.shared = new Shared(hits);
    this.end = CLEANER.register(this, shared);
  }

  /** A monitor whose matches can tell where queries hold. There is one analyzer. */
  public Monitor(Analyzer analyzer) {
    this(true);
    Objects.requireNonNull(analyzer, "an analyzer is null");
  }

  /** Refused: UnsupportedOperationException. */
  public Monitor(Analyzer analyzer, Presearcher presearcher) {
    throw new UnsupportedOperationException(
        "no presearcher can be chosen here, as the engine has its own: leave it out");
  }

  /** The version of the library. */
  public static String version() {
    return Library.pressclip_version();
  }

  /** Has a listener hear of all changes that are made after this. */
  public void addQueryIndexUpdateListener(MonitorUpdateListener listener) {
    listeners.add(Objects.requireNonNull(listener, "a listener is null"));
  }

  /**
   * Registers queries, one after another, each in the place of the one with its id: all of them or none, up to 1,024.
   * More are registered in parts of so many, and where a part is refused, those before it stay.
   */
  public void register(Iterable<MonitorQuery> queries) throws IOException {
    List<MonitorQuery> updates = new ArrayList<>();
    List<byte[]> texts = new ArrayList<>();
    for (MonitorQuery query : queries) {
      updates.add(Objects.requireNonNull(query, "a query is null"));
      texts.add(Utf8.of(query.getId(), "an id"));
      texts.add(Utf8.of(query.getQueryString(), "a query"));
    }
    shared.check();
    for (int start = 0; start < updates.size(); start += PART) {
      int end = Math.min(start + PART, updates.size());
      registerPart(updates, start, texts.subList(2 * start, 2 * end));
      List<MonitorQuery> part = Collections.unmodifiableList(updates.subList(start, end));
      listeners.forEach(listener -> listener.afterUpdate(part));
    }
  }

  /** Registers the queries from a place on whose ids and texts these are. */
  private void registerPart(List<MonitorQuery> updates, int start, List<byte[]> texts) {
    LongByReference which = new LongByReference();
    int status;
    try (Memory listings = listings(texts)) {
      status = shared.with(at -> Library.pressclip_shared_register_many(at, listings, texts.size() / 2, which));
    }
    int place = Math.toIntExact(start + which.getValue());
    if (status == Library.QUERY) {
      throw new QueryException(place, Fault.of(updates.get(place).getQueryString()));
    }
    Library.well(status, place);
  }

  /** The texts of ids and queries, two for each, as an array of pressclip_listing and behind it what it points to. */
  private static Memory listings(List<byte[]> texts) {
    long at = (long) LISTING * texts.size() / 2;
    Memory memory = Room.of(at + texts.stream().mapToLong(text -> text.length).sum() + 1);
    memory.clear(at);
    for (int place = 0; place < texts.size(); place++) {
      byte[] text = texts.get(place);
      long structure = (long) LISTING * (place / 2) + 16 * (place % 2);
      memory.setPointer(structure, memory.share(at));
      memory.setLong(structure + 8, text.length);
      memory.write(at, text, 0, text.length);
      at += text.length;
    }
    return memory;
  }

  /** Registers queries, as the other {@code register}. */
  public void register(MonitorQuery... queries) throws IOException {
    register(Arrays.asList(queries));
  }

  /** Takes the queries with these ids out, one after another; ids that none has are passed over. */
  public void deleteById(List<String> queryIds) throws IOException {
    List<byte[]> ids = new ArrayList<>();
    for (String id : queryIds) {
      ids.add(idOf(id, ids.size()));
    }
    shared.check();
    for (byte[] id : ids) {
      Library.well(
          shared.with(at -> Library.pressclip_shared_delete(at, id, id.length, new LongByReference())), 0);
    }
    List<String> deleted = List.copyOf(queryIds);
    listeners.forEach(listener -> listener.afterDelete(deleted));
  }

  /** An id, which is refused here where the library would refuse it after others were taken. */
  private static byte[] idOf(String id, int which) {
    byte[] bytes = Utf8.of(id, "an id");
    if (bytes.length == 0 || bytes.length > 256) {
      throw new RefusedException("limit", which);
    }
    return bytes;
  }

  /** Takes queries out, as the other {@code deleteById}. */
  public void deleteById(String... queryIds) throws IOException {
    deleteById(Arrays.asList(queryIds));
  }

  /** Takes all queries out. */
  public void clear() throws IOException {
    Library.well(shared.with(Library::pressclip_shared_clear), 0);
    listeners.forEach(MonitorUpdateListener::afterClear);
  }

  /** Gives memory back that replaced and deleted queries hold; matches stay as they are. */
  public void purgeCache() throws IOException {
    Library.well(shared.with(Library::pressclip_shared_purge), 0);
    listeners.forEach(MonitorUpdateListener::onPurge);
  }

  /** The query with this id, or null where there is none. */
  public MonitorQuery getQuery(String queryId) throws IOException {
    byte[] id = Utf8.of(queryId, "an id");
    PointerByReference query = new PointerByReference();
    LongByReference length = new LongByReference();
    Library.well(
        shared.with(at -> Library.pressclip_shared_show(at, Room.ended(id), id.length, query, length)), 0);
    String text = Room.taken(query, length);
    return text == null ? null : new MonitorQuery(queryId, text);
  }

  /** How many queries are registered. */
  public int getQueryCount() throws IOException {
    LongByReference count = new LongByReference();
    Library.well(shared.with(at -> Library.pressclip_shared_count(at, count)), 0);
    return Math.toIntExact(count.getValue());
  }

  /** The ids that were registered at one moment, in their byte order. */
  public Set<String> getQueryIds() throws IOException {
    PointerByReference view = new PointerByReference();
    Library.well(shared.with(at -> Library.pressclip_shared_snapshot(at, view)), 0);
    try {
      Set<String> ids = new LinkedHashSet<>();
      List<String> page = page(view.getValue(), null);
      while (!page.isEmpty()) {
        ids.addAll(page);
        page = page(view.getValue(), Utf8.of(page.get(page.size() - 1), "an id"));
      }
      return ids;
    } finally {
      Library.pressclip_snapshot_free(view);
    }
  }

  private static List<String> page(Pointer view, byte[] after) {
    PointerByReference result = new PointerByReference();
    Library.well(Library.pressclip_snapshot_ids(view, after, after == null ? 0 : after.length, PAGE, result), 0);
    try {
      return Results.ids(result.getValue());
    } finally {
      Library.pressclip_result_free(result.getValue());
    }
  }

  private void check(MatcherFactory<?> factory) {
    factory.check();
    if (factory.wantsHits && !hits) {
      throw new UnsupportedOperationException("this Monitor was made without hits: make it by new Monitor(true)");
    }
  }

  /** The queries that hold of a document. */
  public <T extends QueryMatch> MatchingQueries<T> match(Document document, MatcherFactory<T> factory)
      throws IOException {
    check(factory);
    PointerByReference result = new PointerByReference();
    try (Given given = new Given(document)) {
      Library.well(shared.with(at -> Library.pressclip_shared_match(
          at, Given.ID, Given.ID_LENGTH, given.memory, given.count(), result)), 0);
      return Results.matches(result.getValue(), given, factory);
    } finally {
      Library.pressclip_result_free(result.getValue());
    }
  }

  /** The queries that hold of each document, on what was registered at one moment: of all of them or of none. */
  public <T extends QueryMatch> MultiMatchingQueries<T> match(Document[] documents, MatcherFactory<T> factory)
      throws IOException {
    check(factory);
    List<Given> given = new ArrayList<>();
    Memory results = Room.of(8L * documents.length);
    results.clear();
    try {
      for (Document document : documents) {
        given.add(new Given(document));
      }
      matchAll(given, results);
      List<MatchingQueries<T>> each = new ArrayList<>();
      for (int place = 0; place < documents.length; place++) {
        each.add(Results.matches(results.getPointer(8L * place), given.get(place), factory));
      }
      return new MultiMatchingQueries<>(each);
    } finally {
      for (int place = 0; place < documents.length; place++) {
        Library.pressclip_result_free(results.getPointer(8L * place));
      }
      results.close();
      given.forEach(Given::close);
    }
  }

  /** Matches the documents, and puts their results. */
  private void matchAll(List<Given> given, Memory results) {
    LongByReference which = new LongByReference();
    try (Memory articles = Room.of((long) Given.ARTICLE * given.size() + Given.ID.length)) {
      long id = (long) Given.ARTICLE * given.size();
      articles.write(id, Given.ID, 0, Given.ID.length);
      for (int place = 0; place < given.size(); place++) {
        given.get(place).putArticle(articles, (long) Given.ARTICLE * place, articles.share(id));
      }
      int status = shared.with(
          at -> Library.pressclip_shared_match_many(at, articles, given.size(), results, which));
      Library.well(status, which.getValue());
    }
  }

  /** Ends it, after the calls that are in it. Closing it again does nothing. */
  @Override
  public void close() {
    end.clean();
  }
}
