// What a state is made of is changed in place by some other name: then each look at it counts.
// judged with: --public --infer
import java.util.Arrays;
import java.util.BitSet;
import java.util.HashMap;
import java.util.Iterator;
import java.util.Map;

public class ChangedInPlace {
    private record State(int[] bits, Map<String, Integer> owners) { }

    private volatile State state = new State(new int[9], new HashMap<>());

    public void begin() { // accepted
        state = new State(new int[9], new HashMap<>());
    }

    public void fill() { // refused
        Arrays.fill(state.bits(), 1);
    }

    public int sum() { // refused
        State now = state;
        return now.bits()[0] + now.bits()[1];
    }
}

class ByArrayCopy {
    private record State(int[] bits) { }

    private volatile State state = new State(new int[9]);

    public void copy(int[] from) { // refused
        System.arraycopy(from, 0, state.bits(), 0, 9);
    }

    public void begin() { // accepted
        state = new State(new int[9]);
    }

    public int sum() { // refused
        State now = state;
        return now.bits()[0] + now.bits()[1];
    }
}

class ByHelper {
    private record State(BitSet bits) { }

    private volatile State state = new State(new BitSet());

    private static void set(BitSet bits) {
        bits.set(1);
        bits.set(2);
    }

    public void begin() { // accepted
        state = new State(new BitSet());
    }

    public void setIt() { // refused
        set(state.bits());
    }

    public int count() { // refused
        return state.bits().cardinality();
    }
}

class ByEntry {
    private record State(Map<String, Integer> owners) { }

    private volatile State state = new State(new HashMap<>());

    public void begin() { // accepted
        state = new State(new HashMap<>());
    }

    public void raise() { // refused
        for (Map.Entry<String, Integer> each : state.owners().entrySet()) {
            each.setValue(each.getValue() + 1);
        }
    }

    public int get(String key) { // refused
        return state.owners().getOrDefault(key, 0);
    }
}

class ByEntryInFunction {
    private record State(Map<String, Integer> owners) { }

    private volatile State state = new State(new HashMap<>());

    public void begin() { // accepted
        state = new State(new HashMap<>());
    }

    public void raise() { // refused
        state.owners().entrySet().forEach(each -> each.setValue(each.getValue() + 1));
    }

    public int get(String key) { // refused
        return state.owners().getOrDefault(key, 0);
    }
}

class ByIterator {
    private record State(Map<String, Integer> owners) { }

    private volatile State state = new State(new HashMap<>());

    public void begin() { // accepted
        state = new State(new HashMap<>());
    }

    public void clear() { // refused
        Iterator<Map.Entry<String, Integer>> each = state.owners().entrySet().iterator();
        while (each.hasNext()) {
            each.next().setValue(0);
        }
    }

    public int get(String key) { // refused
        return state.owners().getOrDefault(key, 0);
    }
}

class ByView {
    private record State(Map<String, Integer> owners) { }

    private volatile State state = new State(new HashMap<>());

    public void begin() { // accepted
        state = new State(new HashMap<>());
    }

    public void drop() { // refused
        state.owners().values().removeIf(each -> each == 0);
    }

    public int get(String key) { // refused
        return state.owners().getOrDefault(key, 0);
    }
}

class ByField {
    private record State(Map<String, Integer> owners) { }

    private volatile State state = new State(new HashMap<>());
    private Map<String, Integer> last = Map.of();

    public void begin() { // accepted
        state = new State(new HashMap<>());
    }

    public synchronized void keep() { // refused
        last = state.owners();
        last.put("a", 1);
    }

    public int get(String key) { // refused
        return state.owners().getOrDefault(key, 0);
    }
}
