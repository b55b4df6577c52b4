package atomic.trace;

import java.io.IOException;
import java.nio.file.Files;
import java.nio.file.Path;
import java.util.ArrayList;
import java.util.HashMap;
import java.util.IdentityHashMap;
import java.util.List;
import java.util.Map;

/**
 * What the threads did, in order: a thread, an action and its words, and behind a tab the place of the source. The value of a field is
 * told as the number of writes so far: which value it was doesn't matter, only that a read sees the last one.
 */
final class Log {
    private final List<String> lines = new ArrayList<>();
    private final Map<Object, String> names = new IdentityHashMap<>();
    private final Map<String, Integer> counts = new HashMap<>();
    private final Map<String, Integer> versions = new HashMap<>();

    void add(String thread, String action, String place) {
        lines.add(thread + " " + action + "\t" + place);
    }

    void read(String thread, String where, String place) {
        add(thread, "read " + where + " " + versions.getOrDefault(where, 0), place);
    }

    void write(String thread, String where, String place) {
        add(thread, "write " + where + " " + versions.merge(where, 1, Integer::sum), place);
    }

    /** A step that looks and writes at once. */
    void change(String thread, String where, String place) {
        int before = versions.getOrDefault(where, 0);
        add(thread, "change " + where + " " + before + " " + (before + 1), place);
        versions.put(where, before + 1);
    }

    /** The name of an object: its class and a number. */
    String name(Object object) {
        if (object instanceof Class<?> known) {
            return known.getSimpleName() + ".class";
        }
        return names.computeIfAbsent(object, each -> {
            String kind = each == null ? "null" : each.getClass().getSimpleName().replace("[]", "-array");
            return (kind.isEmpty() ? "Anonymous" : kind) + "@" + counts.merge(kind, 1, Integer::sum);
        });
    }

    void write(Path file) throws IOException {
        Files.write(file, lines);
    }
}
