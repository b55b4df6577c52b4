// The map may change while its entries are copied, one after the other.
import java.util.*;
import java.util.concurrent.*;

class CopyOfConcurrent {
    private final ConcurrentHashMap<String, Integer> all = new ConcurrentHashMap<>();

    /* atomic */ Map<String, Integer> copy() { // refused
        return new HashMap<>(all);
    }
}
