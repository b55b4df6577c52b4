package atomic.java.places;

import java.util.ArrayList;
import java.util.LinkedHashMap;
import java.util.List;
import java.util.Map;

/** Explanations line by line: a block for each method. Of two methods that stand for one in Java one block is enough. */
final class Blocks {
    private final Map<String, List<String>> blocks = new LinkedHashMap<>();
    private List<String> current = new ArrayList<>();

    /** Begins the block of a method; whether it is the first of its name. */
    boolean begin(String head) {
        current = new ArrayList<>();
        return blocks.putIfAbsent(head, current) == null;
    }

    /** Adds a line, unless the one before it says the same: both steps of {@code n++} have one place. */
    void add(String line) {
        if (current.isEmpty() || !current.get(current.size() - 1).equals(line)) {
            current.add(line);
        }
    }

    /** All lines, each block once. */
    List<String> lines() {
        List<String> all = new ArrayList<>();
        blocks.forEach((head, rest) -> {
            all.add(head);
            all.addAll(rest);
        });
        return all;
    }
}
