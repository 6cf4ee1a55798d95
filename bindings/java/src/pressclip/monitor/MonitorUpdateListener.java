package pressclip.monitor;

import java.util.List;

/** Hears of the changes of a monitor, on the thread that makes them and after they are made. */
public interface MonitorUpdateListener {
  /** Queries were registered. */
  default void afterUpdate(List<MonitorQuery> updates) {}

  /** Queries were asked to be taken out, whether or not there were such. */
  default void afterDelete(List<String> queryIds) {}

  /** All queries were taken out. */
  default void afterClear() {}

  /** A purge is over. */
  default void onPurge() {}

  /** A purge failed. */
  default void onPurgeError(Throwable error) {}
}
