// size() of a concurrent map adds up its parts one after the other.
import java.util.concurrent.ConcurrentHashMap;

class SizeOfConcurrentMap {
    private final ConcurrentHashMap<String, String> map = new ConcurrentHashMap<>();

    /* atomic */ int size() { // refused
        return map.size();
    }
}
