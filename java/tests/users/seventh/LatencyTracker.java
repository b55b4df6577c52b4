// judged with: --public --infer
package com.example.seventh;

import java.util.Comparator;
import java.util.Map;
import java.util.Optional;
import java.util.concurrent.ConcurrentHashMap;
import java.util.concurrent.ConcurrentMap;
import java.util.concurrent.atomic.AtomicLong;
import java.util.concurrent.atomic.LongAdder;

public final class LatencyTracker {

    enum Grade { GOOD, SLOW, BAD }

    record Thresholds(long slow, long bad) { }

    private static LatencyTracker shared;

    private final AtomicLong count = new AtomicLong();
    private final AtomicLong sum = new AtomicLong();
    private final AtomicLong max = new AtomicLong();
    private final AtomicLong min = new AtomicLong(Long.MAX_VALUE);
    private final LongAdder timeouts = new LongAdder();
    private final ConcurrentMap<String, Long> counters = new ConcurrentHashMap<>();
    private volatile Thresholds thresholds = new Thresholds(100, 1_000);

    public static LatencyTracker shared() { // refused: fault: double-checked locking with shared not volatile; the outcome under sequential consistency is right, and all fields of the object are final except the volatile thresholds (initialised in the constructor, may be seen null)
        if (shared == null) {
            synchronized (LatencyTracker.class) {
                if (shared == null) {
                    shared = new LatencyTracker();
                }
            }
        }
        return shared;
    }

    public void record(long millis) { // refused: fault: two atomics: one value 10 is recorded, record(20) has counted but not summed when another thread calls mean(): 10/2 = 5.0, while the means were 10.0 and 15.0
        count.incrementAndGet();
        sum.addAndGet(millis);
    }

    public long count() { // accepted
        return count.get();
    }

    public double mean() { // refused: fault: two reads: count 1 is read (one record of 10), another thread's record(20) runs, sum 30 is read: mean 30.0, while the means were 10.0 and 15.0
        long n = count.get();
        return n == 0 ? 0 : (double) sum.get() / n;
    }

    public void observeMax(long millis) { // refused: fault: get and set: thread 1 (5) finds 5 > 0, thread 2 (9) sets 9, thread 1 sets 5: max() is 5
        if (millis > max.get()) {
            max.set(millis);
        }
    }

    public long max() { // accepted
        return max.get();
    }

    public void observeMin(long millis) { // accepted
        min.accumulateAndGet(millis, Math::min);
    }

    public long min() { // accepted
        return min.get();
    }

    public void timeout() { // accepted
        timeouts.increment();
    }

    public long timeouts() { // accepted
        return timeouts.sum();
    }

    public long increment(String name) { // accepted
        return counters.merge(name, 1L, Long::sum);
    }

    public boolean incrementIfKnown(String name) { // refused: fault: three map operations: two threads read 1 and both put 2 (lost update)
        if (!counters.containsKey(name)) {
            return false;
        }
        counters.put(name, counters.get(name) + 1);
        return true;
    }

    public boolean incrementIfPresent(String name) { // accepted
        return counters.computeIfPresent(name, (k, v) -> v + 1) != null;
    }

    public long counter(String name) { // accepted
        return counters.getOrDefault(name, 0L);
    }

    public Optional<Long> resetCounter(String name) { // accepted
        return Optional.ofNullable(counters.remove(name));
    }

    public Map<String, Long> counters() { // refused: fault: weakly consistent iteration: a=1 is copied, another thread does increment(a) then increment(b), b=2 is copied: {a=1,b=2}, which never was
        return Map.copyOf(counters);
    }

    public Optional<String> busiest() { // refused: fault: weakly consistent iteration: a=5 and b=5, a=5 is seen, another thread does increment(a) twice and then increment(b), b=6 is seen: b, though b never was the biggest
        return counters.entrySet().stream()
                .max(Comparator.comparingLong(Map.Entry::getValue))
                .map(Map.Entry::getKey);
    }

    public void setThresholds(long slow, long bad) { // accepted
        thresholds = new Thresholds(slow, bad);
    }

    public void widen(long by) { // refused: fault: two reads and a write of a volatile: another thread's setThresholds(1,2) between read and write is overwritten (grade() then still works with the old ones)
        thresholds = new Thresholds(thresholds.slow() + by, thresholds.bad() + by);
    }

    public Grade grade(long millis) { // accepted
        Thresholds t = thresholds;
        if (millis >= t.bad()) {
            return Grade.BAD;
        }
        return millis >= t.slow() ? Grade.SLOW : Grade.GOOD;
    }

    public boolean isSlowButNotBad(long millis) { // refused: fault: two reads of thresholds (100,120) with millis 150: slow 100 is read, another thread does setThresholds(200,1000), bad 1000 is read: true, although 150 was BAD before and GOOD after (false both times)
        return millis >= thresholds.slow() && millis < thresholds.bad();
    }
}
