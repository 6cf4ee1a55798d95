package pressclip.monitor;

import com.sun.jna.ptr.LongByReference;
import com.sun.jna.ptr.PointerByReference;
import java.util.regex.Matcher;
import java.util.regex.Pattern;

/** Why a text is no query. */
final class Fault {
  /** What pressclip_explain gives of a text that is none; of a query it gives another object. */
  private static final Pattern TOLD = Pattern.compile("\\{\"at\":(\\d+),\"fault\":\"(\\w+)\",\"says\":\"(.*)\"\\}");

  final String word;
  final int at;
  final String says;

  private Fault(String word, int at, String says) {
    this.word = word;
    this.at = at;
    this.says = says;
  }

  /** The fault of a text, or null where it is a query. */
  static Fault of(String text) {
    byte[] query = Utf8.of(text, "a query");
    PointerByReference reply = new PointerByReference();
    LongByReference length = new LongByReference();
    Library.well(Library.pressclip_explain(Room.ended(query), query.length, reply, length), 0);
    Matcher told = TOLD.matcher(Room.taken(reply, length));
    if (!told.matches()) {
      return null;
    }
    int at = Utf8.characters(query, 0, Integer.parseInt(told.group(1)));
    return new Fault(told.group(2), at, told.group(3).replaceAll("\\\\(.)", "$1"));
  }

  @Override
  public String toString() {
    return word + " at " + at + ": " + says;
  }
}
