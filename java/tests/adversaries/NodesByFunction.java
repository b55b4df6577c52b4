// A function may have a node in its hands only while the container's collection calls it.
// judged with: --infer
import java.util.ArrayList;
import java.util.EnumMap;
import java.util.List;
import java.util.Map;
import java.util.function.Consumer;

class NodesByFunction {
    enum Kind { READ, WRITE }

    private static class Cell {
        int calls;
        int errors;
    }

    private final Map<Kind, Cell> cells = new EnumMap<>(Kind.class);

    /* atomic */ synchronized void count(Kind kind) { // accepted
        Cell cell = cells.computeIfAbsent(kind, each -> new Cell());
        cell.calls++;
        cell.errors = 0;
    }

    /* atomic */ synchronized void clear() { // accepted
        cells.values().forEach(cell -> {
            cell.calls = 0;
            cell.errors = 0;
        });
    }
}

class NodesGivenOut {
    private static class Cell {
        int calls;
        int errors;
    }

    private final List<Cell> cells = new ArrayList<>();
    private final List<Object> all;

    NodesGivenOut(List<Object> all) {
        this.all = all;
    }

    /* atomic */ synchronized void count() { // refused: others may know the cells
        Cell cell = new Cell();
        cells.add(cell);
        cell.calls++;
        cells.get(0).calls++;
        cells.get(0).errors++;
    }

    synchronized void give() {
        cells.forEach(cell -> all.add(cell));
    }
}

class NodesByReference {
    private static class Cell {
        int calls;
        int errors;
    }

    private final List<Cell> cells = new ArrayList<>();
    private final Consumer<Object> listener;

    NodesByReference(Consumer<Object> listener) {
        this.listener = listener;
    }

    /* atomic */ synchronized void count() { // refused: others may know the cells
        cells.add(new Cell());
        cells.get(0).calls++;
        cells.get(0).errors++;
    }

    synchronized void give() {
        cells.forEach(listener::accept);
    }
}

class NodesByLoop {
    private static class Cell {
        int calls;
        int errors;
    }

    private final List<Cell> cells = new ArrayList<>();
    private final List<Object> all;

    NodesByLoop(List<Object> all) {
        this.all = all;
    }

    /* atomic */ synchronized void count() { // refused: others may know the cells
        cells.add(new Cell());
        cells.get(0).calls++;
        cells.get(0).errors++;
    }

    synchronized void give() {
        for (Object each : cells) {
            all.add(each);
        }
    }
}

class NodesByArray {
    private static class Cell {
        int calls;
        int errors;
    }

    private final List<Cell> cells = new ArrayList<>();

    /* atomic */ synchronized void count() { // refused: others may know the cells
        cells.add(new Cell());
        cells.get(0).calls++;
        cells.get(0).errors++;
    }

    synchronized Object[] give() {
        return cells.toArray();
    }
}

class NodesByCast {
    private static class Cell {
        int calls;
        int errors;
    }

    private final List<Cell> cells = new ArrayList<>();

    /* atomic */ synchronized void count() { // refused: others may know the cells
        cells.add(new Cell());
        cells.get(0).calls++;
        cells.get(0).errors++;
    }

    synchronized Object give(boolean text) {
        return text ? "none" : (Object) cells.get(0);
    }
}

class NodesByChoice {
    private static class Cell {
        int calls;
        int errors;
    }

    private final List<Cell> cells = new ArrayList<>();

    /* atomic */ synchronized void count() { // refused: others may know the cells
        cells.add(new Cell());
        cells.get(0).calls++;
        cells.get(0).errors++;
    }

    synchronized Object give(boolean text) {
        return text ? "none" : cells.get(0);
    }
}

class NodesByListener {
    private static class Cell {
        int calls;
        int errors;
    }

    private final List<Cell> cells = new ArrayList<>();
    private final Consumer<Object> listener;

    NodesByListener(Consumer<Object> listener) {
        this.listener = listener;
    }

    /* atomic */ synchronized void count() { // refused: others may know the cells
        cells.add(new Cell());
        cells.get(0).calls++;
        cells.get(0).errors++;
    }

    synchronized void give() {
        cells.forEach(listener);
    }
}
