// judged with: --public --infer
package com.example.twelfth;

import java.util.EnumMap;
import java.util.LinkedHashMap;
import java.util.Map;
import java.util.concurrent.atomic.AtomicLong;
import java.util.concurrent.atomic.AtomicReference;
import java.util.concurrent.atomic.LongAdder;

/** Playback statistics of the whole process. */
public class StreamStats {

  public enum Event { PLAY, STALL, SEEK, STOP }

  public record Range(long min, long max) {
    public Range including(long v) { // accepted
      return new Range(Math.min(min, v), Math.max(max, v));
    }

    public boolean isEmpty() { return min > max; } // accepted
  }

  private static final Range NONE = new Range(Long.MAX_VALUE, Long.MIN_VALUE);

  private static final class Holder {
    static final StreamStats INSTANCE = new StreamStats();
  }

  private static final class Formatter {
    private String unit;
    private Map<Event, String> names;

    Formatter(String unit) {
      this.unit = unit;
      this.names = new LinkedHashMap<>();
      for (var e : Event.values()) names.put(e, e.name().toLowerCase());
    }

    String format(Event e, long n) {
      return names.get(e) + "=" + n + unit;
    }
  }

  private final Map<Event, LongAdder> events = new EnumMap<>(Event.class);
  private final AtomicLong peakViewers = new AtomicLong();
  private final AtomicLong bytes = new AtomicLong();
  private final AtomicReference<Range> bitrates = new AtomicReference<>(NONE);
  private Formatter formatter;
  private String label = "";
  private int relabelled;

  StreamStats() {
    for (var e : Event.values()) events.put(e, new LongAdder());
  }

  public static StreamStats global() { // accepted
    return Holder.INSTANCE;
  }

  public void mark(Event event) { // accepted
    events.get(event).increment();
  }

  public long count(Event event) { // refused: fault: LongAdder.sum() is not an atomic snapshot (it adds cell by cell); but as there are only increments by one and no reset, every answer is a value the counter had during the call, so one may well call it atomic
    return events.get(event).sum();
  }

  public double stallRatio() { // refused: fault: two counters read one after the other: T1 reads plays=1, T2 marks PLAY and STALL ten times each, T1 reads stalls=10: ratio 10.0, which was never so
    long plays = count(Event.PLAY);
    return plays == 0 ? 0 : (double) count(Event.STALL) / plays;
  }

  public void viewers(long now) { // refused: fault: check-then-act on an AtomicLong: peak 5, T1 (7) and T2 (9) both pass the check, T2 sets 9, T1 sets 7
    if (now > peakViewers.get()) peakViewers.set(now);
  }

  public long peakViewers() { return peakViewers.get(); } // accepted

  public long transferred(long n) { // accepted
    return bytes.addAndGet(n);
  }

  public void bitrate(long bps) { // accepted
    bitrates.updateAndGet(r -> r.including(bps));
  }

  public String bitrateRange() { // accepted
    var r = bitrates.get();
    return r.isEmpty() ? "-" : r.min() + ".." + r.max();
  }

  /** One event as text, for the log. */
  public String describe(Event event) { // refused: fault: double-checked locking without volatile, and Formatter has no final fields: T2 may see the reference before names is written and throw NullPointerException
    if (formatter == null) {
      synchronized (this) {
        if (formatter == null) formatter = new Formatter("x");
      }
    }
    return formatter.format(event, count(event));
  }

  public synchronized void relabel(String newLabel) { // accepted
    label = newLabel;
    relabelled++;
  }

  public String label() { // accepted
    synchronized (this) { return label + "#" + relabelled; }
  }
}
