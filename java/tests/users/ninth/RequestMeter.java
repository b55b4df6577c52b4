// judged with: --public --infer
package com.example.ninth;

import java.util.Map;
import java.util.TreeMap;
import java.util.concurrent.ConcurrentHashMap;
import java.util.concurrent.atomic.AtomicInteger;
import java.util.concurrent.atomic.AtomicReference;
import java.util.concurrent.atomic.LongAdder;

/** Request metrics of the process. */
public final class RequestMeter {
    public record Window(long count, long nanos, long max) {
        static final Window EMPTY = new Window(0, 0, 0);

        Window plus(long sample) {
            return new Window(count + 1, nanos + sample, Math.max(max, sample));
        }

        double mean() {
            return count == 0 ? 0 : (double) nanos / count;
        }
    }

    private static volatile RequestMeter instance;

    private final ConcurrentHashMap<String, Long> byRoute = new ConcurrentHashMap<>();
    private final AtomicReference<Window> window = new AtomicReference<>(Window.EMPTY);
    private final AtomicInteger inFlight = new AtomicInteger();
    private final LongAdder failures = new LongAdder();
    private volatile long peak;
    private volatile boolean enabled = true;

    private RequestMeter() { }

    public static RequestMeter instance() { // accepted
        RequestMeter m = instance;
        if (m == null) {
            synchronized (RequestMeter.class) {
                m = instance;
                if (m == null) {
                    m = new RequestMeter();
                    instance = m;
                }
            }
        }
        return m;
    }

    public long hit(String route) { // accepted
        return byRoute.merge(route, 1L, Long::sum);
    }

    public void hitMany(String route, long n) { // refused: fault: old=5 seen, then hit(r) returns 6, then put 5+n: hits(r) lacks the hit
        Long old = byRoute.putIfAbsent(route, n);
        if (old != null) {
            byRoute.put(route, old + n);
        }
    }

    public long hits(String route) { // accepted
        return byRoute.getOrDefault(route, 0L);
    }

    public Map<String, Long> allHits() { // refused: fault: the walk has passed the place of a; another thread runs hit(a) and then hit(b): the copy has the hit of b but not the earlier one of a
        return new TreeMap<>(byRoute);
    }

    public void sample(long nanos) { // accepted
        window.updateAndGet(w -> w.plus(nanos));
    }

    public double mean() { // accepted
        return window.get().mean();
    }

    public double spread() { // refused: fault: window (1 sample of 10): reads max 10, then another thread runs drain(): mean 0, result 10; in whole calls 0 before and 0 after
        return window.get().max() - window.get().mean();
    }

    public Window drain() { // accepted
        return window.getAndSet(Window.EMPTY);
    }

    public void done(String route, long nanos) { // refused: fault: between hit and sample, hits(r) is 1 and after that drain() is empty in another thread
        hit(route);
        sample(nanos);
    }

    public boolean tryEnter(int max) { // refused: fault: two tryEnter(1) both read 0, both return true, inFlight() is 2
        if (inFlight.get() >= max) return false;
        inFlight.incrementAndGet();
        return true;
    }

    public boolean enterBelow(int max) { // accepted
        return inFlight.getAndUpdate(n -> n < max ? n + 1 : n) < max;
    }

    public void leave() { inFlight.decrementAndGet(); } // accepted

    public int inFlight() { return inFlight.get(); } // accepted

    public void offerPeak(long value) { // refused: fault: peak 0: offerPeak(5) passes the test, another thread runs offerPeak(9) and peak() gives 9, then 5 is written: peak() falls to 5
        if (value > peak) peak = value;
    }

    public long peak() { return peak; } // accepted

    public void fail() { failures.increment(); } // accepted

    public long failures() { return failures.sum(); } // accepted

    public boolean toggle() { // refused: fault: two toggles both read true and write false: enabled() false after two toggles of true (also the second read of the field may return the other's value)
        enabled = !enabled;
        return enabled;
    }

    public boolean enabled() { return enabled; } // accepted
}
