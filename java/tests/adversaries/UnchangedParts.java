// What a state is made of is never changed in place: to look at it is no step. Who gives a part of it out as it is lets its caller
// change it, and where one is changed in place, each look at it counts.
// judged with: --public --infer
import java.util.BitSet;
import java.util.HashMap;
import java.util.Map;
import java.util.OptionalInt;
import java.util.concurrent.atomic.AtomicReference;

public class UnchangedParts {
    private record State(BitSet used, Map<Integer, String> owners) {
        State with(int slot, String owner) {
            BitSet next = (BitSet) used.clone();
            Map<Integer, String> all = new HashMap<>(owners);
            next.set(slot);
            all.put(slot, owner);
            return new State(next, all);
        }
    }

    private final AtomicReference<State> state = new AtomicReference<>(new State(new BitSet(), Map.of()));

    public OptionalInt take(String owner) { // accepted
        for (;;) {
            State now = state.get();
            int slot = now.used().nextClearBit(0);
            if (slot > 9) {
                return OptionalInt.empty();
            }
            if (state.compareAndSet(now, now.with(slot, owner))) {
                return OptionalInt.of(slot);
            }
        }
    }

    public int count() { // accepted
        return state.get().used().cardinality();
    }

    public String owner(int slot) { // accepted
        return state.get().owners().get(slot);
    }

    public BitSet used() { // refused
        return state.get().used();
    }

    public BitSet copy() { // accepted
        return (BitSet) state.get().used().clone();
    }

    public boolean twice() { // refused
        return state.get().used().isEmpty() || state.get().used().get(0);
    }
}

class ChangedParts {
    private record State(BitSet used, Map<Integer, String> owners) { }

    private final AtomicReference<State> state = new AtomicReference<>(new State(new BitSet(), new HashMap<>()));

    public void set(int slot) { // refused: in place
        state.get().used().set(slot);
    }

    public int count() { // refused
        return state.get().used().cardinality();
    }

    public String owner(int slot) { // accepted: nobody changes these
        return state.get().owners().get(slot);
    }
}

class ChangedBehind {
    private record State(BitSet used) { }

    private final AtomicReference<State> state = new AtomicReference<>(new State(new BitSet()));

    public void replace(int slot) { // refused: others may have the set by then
        BitSet next = (BitSet) state.get().used().clone();
        state.set(new State(next));
        next.set(slot);
    }

    public int count() { // refused
        return state.get().used().cardinality();
    }
}

class BroughtFromOutside {
    private record State(BitSet used) { }

    private final AtomicReference<State> state = new AtomicReference<>(new State(new BitSet()));

    public void replace(BitSet next) { // accepted: an argument isn't touched during the call
        state.set(new State(next));
    }

    public int count() { // refused: whoever brought the set may change it
        return state.get().used().cardinality();
    }
}
