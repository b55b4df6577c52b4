// What a function gives that a helper calls under its lock goes to whoever gets what the helper gives.
// judged with: --public --infer
import java.util.HashMap;
import java.util.Map;
import java.util.Set;
import java.util.concurrent.locks.Lock;
import java.util.concurrent.locks.ReentrantLock;
import java.util.function.Supplier;

public class GivenBackByHelper {
    private final Map<String, Integer> members = new HashMap<>();
    private final Lock lock = new ReentrantLock();

    private <T> T locked(Supplier<T> body) {
        return locked(lock, body);
    }

    private static <T> T locked(Lock held, Supplier<T> body) {
        held.lock();
        try {
            return body.get();
        } finally {
            held.unlock();
        }
    }

    public void put(String name) { // accepted
        locked(() -> members.put(name, 1));
    }

    public Integer change(String name) { // accepted
        return locked(() -> {
            members.remove(name);
            return members.put(name, 2);
        });
    }

    public Set<String> names() { // refused
        return locked(members::keySet);
    }

    public Set<String> shown() { // refused
        return locked(() -> members.keySet());
    }

    public int size() { // accepted
        return locked(members::size);
    }
}

class KeptByHelper {
    private final Map<String, Integer> members = new HashMap<>();
    private Set<String> last;

    private synchronized Set<String> locked(Supplier<Set<String>> body) {
        last = body.get();
        return Set.of();
    }

    public synchronized Integer change(String name) { // refused
        members.remove(name);
        return members.put(name, 2);
    }

    public Set<String> names() {
        return locked(members::keySet);
    }

    public Set<String> last() {
        synchronized (this) {
            return last;
        }
    }
}
