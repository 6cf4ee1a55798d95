package pressclip.monitor;

import java.util.Collection;
import java.util.Collections;
import java.util.Map;
import java.util.Objects;
import java.util.Set;

/** A query that holds of a document, and the words at which it does. */
public class HighlightsMatch extends QueryMatch {
  /** Gives ids and hits. */
  public static final MatcherFactory<HighlightsMatch> MATCHER = new MatcherFactory<>(true, HighlightsMatch::new);

  private final Map<String, Set<Hit>> hits;

  HighlightsMatch(String queryId, Map<String, Set<Hit>> hits) {
    super(queryId);
    this.hits = hits;
  }

  /** The hits by the names of their fields. */
  public Map<String, Set<Hit>> getHits() {
    return Collections.unmodifiableMap(hits);
  }

  /** The fields with hits. */
  public Set<String> getFields() {
    return Collections.unmodifiableSet(hits.keySet());
  }

  /** The hits in a field, in the order of its words. */
  public Collection<Hit> getHits(String field) {
    return Collections.unmodifiableCollection(hits.getOrDefault(field, Collections.emptySet()));
  }

  /** How many hits there are. */
  public int getHitCount() {
    return hits.values().stream().mapToInt(Set::size).sum();
  }

  @Override
  public boolean equals(Object other) {
    return super.equals(other) && hits.equals(((HighlightsMatch) other).hits);
  }

  @Override
  public int hashCode() {
    return Objects.hash(super.hashCode(), hits);
  }

  @Override
  public String toString() {
    return super.toString() + "{hits=" + hits + "}";
  }

  /** A word of a field: each word of a phrase is a hit of its own. */
  public static final class Hit implements Comparable<Hit> {
    /** Which word of its field it is, from 0. */
    public final int startPosition;
    /** Its first character in the text, as {@code substring} counts. */
    public final int startOffset;
    /** The start position: a hit is one word. */
    public final int endPosition;
    /** The character behind its last one. */
    public final int endOffset;

    /** A hit at these places. */
    public Hit(int startPosition, int startOffset, int endPosition, int endOffset) {
      this.startPosition = startPosition;
      this.startOffset = startOffset;
      this.endPosition = endPosition;
      this.endOffset = endOffset;
    }

    @Override
    public boolean equals(Object other) {
      return other instanceof Hit && compareTo((Hit) other) == 0 && startOffset == ((Hit) other).startOffset
          && endOffset == ((Hit) other).endOffset;
    }

    @Override
    public int hashCode() {
      return Objects.hash(startPosition, startOffset, endPosition, endOffset);
    }

    @Override
    public String toString() {
      return startPosition + "(" + startOffset + ")->" + endPosition + "(" + endOffset + ")";
    }

    @Override
    public int compareTo(Hit other) {
      int byStart = Integer.compare(startPosition, other.startPosition);
      return byStart != 0 ? byStart : Integer.compare(endPosition, other.endPosition);
    }
  }
}
