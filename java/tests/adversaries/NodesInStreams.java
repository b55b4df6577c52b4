// A node may stand in a stream, an Optional or a local collection, as long as its type says so and nobody else gets it.
// judged with: --infer
import java.util.ArrayDeque;
import java.util.ArrayList;
import java.util.Collection;
import java.util.Collections;
import java.util.Comparator;
import java.util.Deque;
import java.util.List;
import java.util.Map;
import java.util.Optional;
import java.util.TreeMap;
import java.util.function.Function;
import java.util.function.Supplier;
import java.util.stream.Collectors;

class NodesInStreams {
    private static class Cell {
        int calls;
        Cell next;

        String title() {
            return "cell " + calls;
        }
    }

    private final Map<String, Cell> cells = new TreeMap<>();

    private void count(Cell cell) {
        cell.calls++;
    }

    /* atomic */ synchronized void add(String name) { // accepted
        cells.computeIfAbsent(name, key -> {
            Cell made = new Cell();
            made.calls = 1;
            return made;
        }).calls++;
    }

    /* atomic */ synchronized Optional<Integer> find(String name) { // accepted
        return Optional.ofNullable(cells.get(name)).filter(cell -> cell.calls > 0).map(cell -> cell.calls);
    }

    /* atomic */ synchronized List<String> titles() { // accepted
        return cells.values().stream().sorted(Comparator.comparingInt(cell -> cell.calls)).map(Cell::title).toList();
    }

    /* atomic */ synchronized Map<Integer, Long> groups() { // accepted
        return cells.values().stream().collect(Collectors.groupingBy(cell -> cell.calls, Collectors.counting()));
    }

    /* atomic */ synchronized void countAll() { // accepted
        cells.values().stream().map(cell -> cell.next).filter(cell -> cell != null).forEach(this::count);
    }

    /* atomic */ synchronized int walk(String name) { // accepted
        Deque<Cell> todo = new ArrayDeque<>(List.of(cells.get(name)));
        int sum = 0;
        while (!todo.isEmpty()) {
            Cell each = todo.pop();
            sum += each.calls;
            if (each.next != null) {
                todo.push(each.next);
            }
        }
        return sum;
    }

    /* atomic */ synchronized int named(String name) { // accepted
        Function<Cell, Integer> calls = cell -> cell.calls;
        return calls.apply(cells.get(name)) + calls.apply(cells.get(name));
    }
}

class NodesInOptional {
    private static class Cell {
        int calls;
    }

    private final List<Cell> cells = new ArrayList<>();

    /* atomic */ synchronized void count() { // refused: others may know the cells
        cells.add(new Cell());
        cells.get(0).calls++;
        cells.get(0).calls++;
    }

    synchronized Optional<Object> first() {
        return cells.stream().findFirst().map(cell -> cell);
    }
}

class NodesCollected {
    private static class Cell {
        int calls;
    }

    private final List<Cell> cells = new ArrayList<>();

    /* atomic */ synchronized void count() { // refused: others may know the cells
        cells.add(new Cell());
        cells.get(0).calls++;
        cells.get(0).calls++;
    }

    synchronized List<Object> all() {
        return cells.stream().collect(Collectors.toList());
    }
}

class NodesInAnyCollection {
    private static class Cell {
        int calls;
    }

    private final List<Cell> cells = new ArrayList<>();

    /* atomic */ synchronized void count() { // refused: others may know the cells
        cells.add(new Cell());
        cells.get(0).calls++;
        cells.get(0).calls++;
    }

    synchronized void copy(Collection<Object> all) {
        Collections.addAll(all, cells.get(0));
    }
}

class NodesInAnyArray {
    private static class Cell {
        int calls;
    }

    private final List<Cell> cells = new ArrayList<>();

    /* atomic */ synchronized void count() { // refused: others may know the cells
        cells.add(new Cell());
        cells.get(0).calls++;
        cells.get(0).calls++;
    }

    synchronized Object[] pair() {
        Object[] pair = {cells.get(0), "first"};
        return pair;
    }
}

class NodesBySwitch {
    private static class Cell {
        int calls;
    }

    private final List<Cell> cells = new ArrayList<>();

    /* atomic */ synchronized void count() { // refused: others may know the cells
        cells.add(new Cell());
        cells.get(0).calls++;
        cells.get(0).calls++;
    }

    synchronized Object pick(int which) {
        Object picked = switch (which) {
            case 0 -> cells.get(0);
            default -> {
                yield cells.get(1);
            }
        };
        return picked;
    }
}

class NodesOfTwo {
    private static class Cell {
        int calls;
    }

    private final List<Cell> cells = new ArrayList<>();

    private void take(Cell cell) {
        cells.add(cell);
    }

    /* atomic */ synchronized void count() { // refused: another container may have the cells too
        cells.add(new Cell());
        cells.get(0).calls++;
        cells.get(0).calls++;
    }

    void share(NodesOfTwo other) {
        synchronized (this) {
            cells.forEach(other::take);
        }
    }
}

class NodesOfTwoHolders {
    private static class Cell {
        int calls;
    }

    class Holder {
        private Cell cell;

        Holder(Cell cell) {
            this.cell = cell;
        }

        /* atomic */ void count() { // refused: the cell may be another container's
            synchronized (NodesOfTwoHolders.this) {
                cell.calls++;
                cell.calls++;
            }
        }
    }

    private final List<Cell> cells = new ArrayList<>();

    synchronized Holder give(NodesOfTwoHolders other) {
        cells.add(new Cell());
        return other.new Holder(cells.get(0));
    }
}

class NodesInOwnList {
    private static class Cell {
        int calls;
    }

    /** A list that gives what it holds to everybody. */
    private static class Open<E> extends ArrayList<E> {
        static final List<Object> ALL = new ArrayList<>();

        @Override
        public boolean add(E element) {
            return ALL.add(element) && super.add(element);
        }
    }

    private final List<Cell> cells = new Open<>();

    /* atomic */ synchronized void count() { // refused: others may know the cells
        cells.add(new Cell());
        cells.get(0).calls++;
        cells.get(0).calls++;
    }
}

class NodesMadeForOthers {
    private static class Cell {
        int calls;
    }

    private Cell first;

    static Object make(Supplier<Object> maker) {
        return maker.get();
    }

    synchronized void put(Object cell) {
        first = (Cell) cell;
    }

    static Object fresh() {
        Supplier<Object> maker = Cell::new;
        return maker.get();
    }

    /* atomic */ synchronized void count() { // refused: two containers may have been given the same cell
        first.calls++;
        first.calls++;
    }
}

class SelfHeld {
    private static final List<Object> ALL = Collections.synchronizedList(new ArrayList<>());
    private volatile int value;
    private SelfHeld before = this;

    SelfHeld() {
        ALL.add(before);
        value = 1;
        value = 2;
    }

    SelfHeld(int first) {
        value = first;
        value = 2 * first;
    }

    /* atomic */ static SelfHeld known() { // refused: others may know it by the field that holds it
        return new SelfHeld();
    }

    /* atomic */ static SelfHeld hidden() { // accepted
        return new SelfHeld(1);
    }

    /* atomic */ static void named() { // refused: the same
        SelfHeld made = new SelfHeld(1);
        ALL.add(made.before);
        made.value = 3;
        made.value = 4;
    }
}
