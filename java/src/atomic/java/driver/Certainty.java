package atomic.java.driver;

import atomic.java.skeleton.Place;
import java.util.ArrayList;
import java.util.Comparator;
import java.util.LinkedHashMap;
import java.util.List;
import java.util.Map;
import java.util.Set;
import java.util.stream.Collectors;

/**
 * The errors of a run beside those that are left where what may be no step is left out. One that is there too is explained
 * by steps that are surely there. It is certain where a guard is missing, and where some method is seen that can tell the
 * interruption; any other may be a wrong alarm, and that is told.
 */
final class Certainty {
    /** What stands between a place and an error there. */
    static final String ERROR = ": error: ";
    /** What stands behind the place of an error that may be a wrong alarm. */
    static final String DOUBT = ": note: this may be a wrong alarm: without what is approximated in it, or in what it touches,"
        + " it isn't found";
    /** What stands there where nobody is seen who would tell the difference. */
    static final String UNSEEN = ": note: this may be a wrong alarm: no method here is seen that could tell that another"
        + " thread came in between";
    private static final String FOUND = ", found ";
    private static final String UNGUARDED = ", found error";

    private final List<String> lines;
    private final Map<String, List<String>> certain;

    /** The errors of both kinds. */
    Certainty(List<String> lines, List<String> certainLines) {
        this.lines = lines;
        certain = blocks(certainLines);
    }

    /** The places of the errors that are certain only where somebody can tell the interruption. */
    Set<String> open() {
        return blocks(lines).entrySet().stream()
            .filter(each -> certain.containsKey(each.getKey()) && isOpen(certain.get(each.getKey()), each.getValue()))
            .map(each -> place(each.getKey())).collect(Collectors.toSet());
    }

    private static boolean isOpen(List<String> sure, List<String> block) {
        return !sure.get(0).endsWith(UNGUARDED) || !block.get(0).endsWith(UNGUARDED);
    }

    /**
     * All lines: each error, and behind it its explanation; {@code witnesses} has for a place the line about who may run in
     * between.
     */
    List<String> lines(Map<String, String> witnesses) {
        List<String> all = new ArrayList<>();
        blocks(lines).forEach((key, block) -> {
            List<String> sure = certain.get(key);
            String place = place(key);
            if (place.isEmpty()) {
                all.addAll(block);
                return;
            }
            all.add(block.get(0));
            all.addAll(sure != null ? sure.subList(1, sure.size()) : block.subList(1, block.size()));
            if (sure == null) {
                all.add(place + DOUBT);
            } else if (isOpen(sure, block)) {
                all.add(witnesses.getOrDefault(place, place + UNSEEN));
            }
        });
        return all;
    }

    /** What stands behind the place of an error where these methods may run in between, so that somebody can tell. */
    static String between(List<String> methods) {
        return ": note: if another thread runs " + String.join(" and then ", methods)
            + " in between, the outcome may fit no order of whole calls";
    }

    /** The files in which some error may be a wrong alarm for what is approximated. */
    static Set<String> doubted(List<String> lines) {
        return lines.stream().filter(each -> each.endsWith(DOUBT))
            .map(each -> placeOf(each.replace(DOUBT, ERROR)).file()).collect(Collectors.toSet());
    }

    /** The errors in the order of their places, each once and with the lines behind it. */
    static List<String> inOrder(Map<String, List<String>> blocks) {
        record Placed(Place place, List<String> block) { }
        return blocks.entrySet().stream().map(each -> new Placed(placeOf(each.getKey()), each.getValue()))
            .sorted(Comparator.comparing(Placed::place)).flatMap(each -> each.block().stream()).toList();
    }

    /** Where an error is told; in front of all others where none is. */
    private static Place placeOf(String error) {
        String written = place(error);
        int column = written.lastIndexOf(':');
        int line = written.lastIndexOf(':', column - 1);
        return written.isEmpty() ? new Place("", 0, 0) : new Place(written.substring(0, line),
            Integer.parseInt(written.substring(line + 1, column)), Integer.parseInt(written.substring(column + 1)));
    }

    /** The place as an error has it in front; empty where the line is none. The name of a file may hold the same words. */
    static String place(String line) {
        int end = line.indexOf(ERROR);
        while (end >= 0 && !endsWithNumbers(line, end)) {
            end = line.indexOf(ERROR, end + 1);
        }
        return end < 0 ? "" : line.substring(0, end);
    }

    /** Whether two numbers stand in front of an offset, each behind a colon. */
    private static boolean endsWithNumbers(String line, int end) {
        int at = end;
        for (int k = 0; k < 2; k++) {
            int before = at;
            while (at > 0 && line.charAt(at - 1) >= '0' && line.charAt(at - 1) <= '9') {
                at--;
            }
            if (at == before || at == 0 || line.charAt(--at) != ':') {
                return false;
            }
        }
        return true;
    }

    /** Whether an error is told as one that may be a wrong alarm. */
    static boolean isDoubted(List<String> block) {
        return block.stream().anyMatch(each -> each.endsWith(DOUBT) || each.endsWith(UNSEEN));
    }

    /** What an error says without what was found. */
    static String key(String line) {
        return !place(line).isEmpty() && line.contains(FOUND) ? line.substring(0, line.lastIndexOf(FOUND)) : line;
    }

    /** Each error with the lines behind it, by what it says without what was found. */
    static Map<String, List<String>> blocks(List<String> lines) {
        Map<String, List<String>> blocks = new LinkedHashMap<>();
        List<String> current = new ArrayList<>();
        for (String line : lines) {
            if (blocks.isEmpty() || !place(line).isEmpty()) {
                current = new ArrayList<>();
                blocks.putIfAbsent(key(line), current);
            }
            current.add(line);
        }
        return blocks;
    }
}
