// judged with: --public --infer
package com.example.thirteenth;

import java.util.*;
import java.util.concurrent.ConcurrentHashMap;
import java.util.concurrent.ConcurrentMap;
import java.util.function.Consumer;
import java.util.function.Supplier;

/** Counts and times the database queries of the game server. */
public class QueryProfiler {

    public record Timing(long calls, long nanos, long worst) {
        public Timing plus(long more) { // accepted
            return new Timing(calls + 1, nanos + more, Math.max(worst, more));
        }

        public double average() { return calls == 0 ? 0.0 : (double) nanos / calls; } // accepted
    }

    private static volatile QueryProfiler shared;

    private final ConcurrentMap<String, Timing> timings = new ConcurrentHashMap<>();
    private final ThreadLocal<Deque<String>> running = ThreadLocal.withInitial(ArrayDeque::new);
    private volatile List<String> slowLog;
    private volatile long slowNanos = 1_000_000_000L;

    public static QueryProfiler shared() { // refused: alarm: the expert sees no interruption
        if (shared == null) {
            synchronized (QueryProfiler.class) {
                if (shared == null) {
                    shared = new QueryProfiler();
                }
            }
        }
        return shared;
    }

    public void record(String query, long nanos) { // accepted
        timings.compute(query, (q, t) -> (t == null ? new Timing(0, 0, 0) : t).plus(nanos));
    }

    public <R> R time(String query, Supplier<R> call) { // refused: alarm: the expert sees no interruption
        long start = System.nanoTime();
        R result = call.get();
        record(query, System.nanoTime() - start);
        return result;
    }

    public Optional<Timing> timing(String query) { // accepted
        return Optional.ofNullable(timings.get(query));
    }

    public double averageNanos(String query) { // accepted
        return timing(query).map(Timing::average).orElse(0.0);
    }

    public double share(String query) { // refused: fault: a weakly consistent sum and then a separate get: T1 sums 10, T2 records 90 for the query, T1 gets 100: share 10.0
        long all = timings.values().stream().mapToLong(Timing::nanos).sum();
        return all == 0 ? 0.0 : timing(query).map(t -> (double) t.nanos() / all).orElse(0.0);
    }

    public boolean forget(String query) { // accepted
        return timings.remove(query) != null;
    }

    /** Hands everything measured so far to the sink and starts anew. */
    public void flush(Consumer<? super Map<String, Timing>> sink) { // refused: fault: copy and clear are separate (and neither is a snapshot): T2 records between them, the timing is neither in the copy nor in the map
        Map<String, Timing> copy = new TreeMap<>(timings);
        timings.clear();
        sink.accept(copy);
    }

    public Optional<Timing> take(String query) { // accepted
        return Optional.ofNullable(timings.remove(query));
    }

    public boolean logIfSlow(String query, long nanos) { // refused: fault: lazy initialisation without a lock: T1 and T2 both see null, T1 sets its list and adds, T2 sets another list over it: T1's entry is lost
        if (nanos < slowNanos) {
            return false;
        }
        if (slowLog == null) {
            slowLog = Collections.synchronizedList(new ArrayList<>());
        }
        slowLog.add(query);
        return true;
    }

    public List<String> slowQueries() { // accepted
        List<String> log = slowLog;
        return log == null ? List.of() : List.copyOf(log);
    }

    public void setSlowMillis(long millis) { // accepted
        slowNanos = millis * 1_000_000;
    }

    public void relax(int percent) { // refused: fault: read-modify-write of a volatile: T2's setSlowMillis() or relax() between read and write is lost
        slowNanos += slowNanos * percent / 100;
    }

    public int enter(String query) { // refused: alarm: the expert sees no interruption
        Deque<String> stack = running.get();
        stack.push(query);
        return stack.size();
    }

    public Optional<String> leave() { // refused: alarm: the expert sees no interruption
        return Optional.ofNullable(running.get().poll());
    }
}
