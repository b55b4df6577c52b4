package atomic.java.translation;

import atomic.java.ownership.Uses;
import java.util.Map;
import java.util.Set;

/**
 * Calls that try again by themselves: {@code v.updateAndGet(x -> x + 1)} calls its function until nobody came in between.
 * Where the function only computes from what it is given, the turns that failed only looked, and the call is one step. So
 * it is with a concurrent map's {@code computeIfAbsent} or {@code merge}, which changes one key, however its function runs.
 */
final class Attempts {
    private static final Set<String> UPDATES = Set.of("getAndUpdate", "updateAndGet", "getAndAccumulate",
        "accumulateAndGet");
    private static final Set<String> ON_KEY = Set.of("computeIfAbsent", "computeIfPresent", "compute", "merge");
    private static final Map<String, Set<String>> CALLS = Map.of("AtomicInteger", UPDATES, "AtomicLong", UPDATES,
        "AtomicReference", UPDATES, "AtomicIntegerArray", UPDATES, "AtomicLongArray", UPDATES, "AtomicReferenceArray", UPDATES,
        "ConcurrentMap", ON_KEY, "ConcurrentHashMap", ON_KEY, "ConcurrentSkipListMap", ON_KEY);
    private final Services services;

    Attempts(Services services) {
        this.services = services;
    }

    /** Whether a call is such a one. */
    boolean isRetry(LibraryCalls.Called called) {
        int dot = called.shown().indexOf('.');
        return dot > 0 && CALLS.getOrDefault(called.shown().substring(0, dot), Set.of())
            .contains(called.shown().substring(dot + 1)) && !called.arguments().isEmpty()
            && services.computing().only(Uses.bare(called.arguments().get(called.arguments().size() - 1)));
    }
}
