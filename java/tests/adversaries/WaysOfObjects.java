// Two fields of an object of the sources are changed in one region. Each way in which a method lets such an object out is refused.
// judged with: --public --infer
import java.util.ArrayList;
import java.util.HashMap;
import java.util.Iterator;
import java.util.List;
import java.util.Map;
import java.util.Optional;
import java.util.function.Consumer;
import java.util.function.Supplier;
import java.util.stream.Stream;

public class WaysOfObjects {
    public static final class Position {
        private long cash;
        private long paper;

        public long cash() {
            return cash;
        }

        public long paper() {
            return paper;
        }
    }

    public record Named(String name, Position position) { }

    private final Map<String, Position> all = new HashMap<>();

    private Position at(String name) {
        return all.computeIfAbsent(name, key -> new Position());
    }

    private Optional<Position> perhaps(String name) {
        return Optional.ofNullable(all.get(name));
    }

    public synchronized void trade(String name, long amount) { // refused
        at(name).cash -= amount;
        at(name).paper += amount;
    }

    public synchronized Optional<Position> inOptional(String name) { // refused
        return Optional.ofNullable(all.get(name));
    }

    public synchronized Optional<Position> byHelper(String name) { // refused
        return perhaps(name);
    }

    public synchronized List<Position> inList() { // refused
        return new ArrayList<>(all.values());
    }

    public synchronized Position[] inArray() { // refused
        return all.values().toArray(new Position[0]);
    }

    public synchronized Position[] inOwnArray(String name) { // refused
        return new Position[] {all.get(name)};
    }

    public synchronized Map<String, Position> inMap() { // refused
        return Map.copyOf(all);
    }

    public synchronized Named inRecord(String name) { // refused
        return new Named(name, all.get(name));
    }

    public synchronized Supplier<Position> inLambda(String name) { // refused
        Position found = all.get(name);
        return () -> found;
    }

    public synchronized Supplier<Long> inReference(String name) { // refused
        return all.get(name)::cash;
    }

    public synchronized Stream<Position> inStream() { // refused
        return new ArrayList<>(all.values()).stream();
    }

    public synchronized Iterator<Position> inIterator() { // refused
        return List.copyOf(all.values()).iterator();
    }

    public synchronized void inCallersList(String name, List<Position> out) { // refused
        out.add(all.get(name));
    }

    public synchronized void byOneInCallersList(List<Position> out) { // refused
        all.values().forEach(out::add);
    }

    public synchronized void inCallersArray(String name, Position[] out) { // refused
        out[0] = all.get(name);
    }

    public synchronized void toFunction(String name, Consumer<Position> user) { // refused
        user.accept(all.get(name));
    }

    public synchronized Map.Entry<String, Position> inEntry(String name) { // refused
        return Map.entry(name, at(name));
    }

    public synchronized List<Position> filtered() { // refused
        return all.values().stream().filter(each -> each.cash > 0).toList();
    }
}
