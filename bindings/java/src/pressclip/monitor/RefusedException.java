package pressclip.monitor;

/** A call was refused, and changed nothing. */
public class RefusedException extends IllegalArgumentException {
  private static final long serialVersionUID = 1L;
  private final String word;
  private final int which;

  RefusedException(String word, int which) {
    this(word, which, sentence(word));
  }

  RefusedException(String word, int which, String says) {
    super(says);
    this.word = word;
    this.which = which;
  }

  private static String sentence(String word) {
    switch (word) {
      case "limit":
        return "limit: an id is not 1 to 256 bytes, a document has over 16 fields or one name twice, or a field's name"
            + " is none";
      case "full":
        return "full: no query, or no change, has room any more";
      case "size":
        return "size: a document has over 1,000,000 fields";
      default:
        return word;
    }
  }

  /** Why, as pressclip.h has it: {@code limit}, {@code query}, {@code full} or {@code size}. */
  public String getWord() {
    return word;
  }

  /** The place, from 0, of what was refused among what was handed in; 0 where that was one thing. */
  public int getWhich() {
    return which;
  }
}
