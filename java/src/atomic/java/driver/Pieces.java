package atomic.java.driver;

import atomic.java.passes.Callees;
import atomic.java.passes.Limits;
import atomic.java.places.Aliases;
import atomic.java.places.Frame;
import atomic.java.places.Text;
import atomic.java.places.Writer;
import atomic.java.program.Program;
import atomic.java.skeleton.Field;
import atomic.java.skeleton.Method;
import atomic.java.skeleton.Part;
import atomic.java.skeleton.Shape;
import java.util.ArrayDeque;
import java.util.ArrayList;
import java.util.Collection;
import java.util.Comparator;
import java.util.Deque;
import java.util.HashMap;
import java.util.HashSet;
import java.util.LinkedHashSet;
import java.util.List;
import java.util.Map;
import java.util.Set;
import java.util.function.BiPredicate;
import java.util.stream.Stream;

/**
 * Which methods are judged in one text: as many as the checker reads, each with all that it calls or overrides. Methods
 * that call much come first, so that those that call the same stand together and it is written seldom.
 */
final class Pieces {

    /** What names of locks may take besides, which get longer from one text to the next. */
    private static final int SPARE_BYTES = 1024;

    /** What a line among the helpers takes besides its words. */
    private static final int SOME_BYTES = 3;

    /** What a final field takes in each constructor besides its name three times, and that of its type. */
    private static final int FINAL_BYTES = 16;

    /** What a class, or the declaration of a field, takes besides its names. */
    private static final int DECLARED_BYTES = 40;

    /** How long a method is, the lines that it wants among the helpers, and the classes and fields that it names. */
    private record Measure(int bytes, List<String> somes, Frame frame) { }

    private final Program program;
    private final Callees callees;
    private final Map<Method, Measure> measures = new HashMap<>();
    private final Map<Method, List<Method>> nexts = new HashMap<>();
    private final Map<Shape, Integer> sizes = new HashMap<>();
    private final Set<Method> cut = new HashSet<>();
    private final Deque<Method> waiting = new ArrayDeque<>();
    private int frame;
    private Aliases aliases;
    private boolean crowded;
    private boolean narrow;

    Pieces(Program program, Callees callees) {
        this.program = program;
        this.callees = callees;
    }

    /** Begins with the pieces of these methods. What doesn't fit into one text is written briefly. */
    void begin(List<Method> roots) {
        waiting.clear();
        waiting.addAll(roots);
        crowded = program.statics().fields().stream().filter(Field::used).count() > Limits.MOST_FINAL;
        narrow = crowded;
        frame = text(writer(), Set.of()).length();
        Piece empty = new Piece();
        if (aliases == null && empty.excess(growth(empty, roots)) > 0) {
            aliases = new Aliases();
            measures.clear();
            sizes.clear();
            narrow = crowded || text(writer(), Set.of()).length() > Checker.MOST_BYTES / 2;
            frame = text(writer(), Set.of()).length();
            waiting.clear();
            waiting.addAll(crowded ? roots : largestFirst(roots));
        }
    }

    boolean hasNext() {
        return !waiting.isEmpty();
    }

    /**
     * The next piece. Where the methods that one calls are too many bytes for one text, {@code cut} is given these, and how
     * many are too many, and makes something smaller if it can; where they name too many classes' statics, it is given that one.
     * A method that stands in a piece, since another one calls it, stands there with all that it calls, so no further piece
     * has to have it.
     */
    Set<Method> next(BiPredicate<Set<Method>, Integer> cut) {
        Piece piece = new Piece();
        while (!waiting.isEmpty()) {
            Method root = waiting.peek();
            Growth more = growth(piece, List.of(root));
            int excess = piece.excess(more);
            if (excess > 0 && !piece.methods.isEmpty()) {
                break;
            } else if (excess <= 0 || !cut.test(piece.crowds(more) ? Set.of(root) : more.methods, excess)) {
                piece.add(more);
                waiting.remove();
            }
        }
        waiting.removeIf(piece.methods::contains);
        return piece.methods;
    }

    /** A writer for texts as long as these. */
    Writer writer() {
        Writer writer = new Writer(program.names(), program.helpers());
        return aliases == null ? writer : writer.brief(aliases);
    }

    /** Words of what the checker says of such a text, in the names of the skeleton. */
    String spelled(String words) {
        return aliases == null ? words : aliases.spelled(words);
    }

    /** The text of these methods. Where all classes would take most of it, it has those that the methods name. */
    Text text(Writer writer, Set<Method> wanted) {
        if (narrow) {
            Frame named = new Frame().add(program.object()).add(program.statics()).add(program.helpers());
            wanted.forEach(named::add);
            writer.within(named);
        }
        return writer.write(program.shapes(), wanted);
    }

    private List<Method> largestFirst(List<Method> roots) {
        Reach reach = new Reach(this::bytes, this::next);
        Map<Method, Integer> sizes = new HashMap<>();
        roots.forEach(root -> sizes.put(root, reach.bytes(root, Checker.MOST_BYTES)));
        return roots.stream().sorted(Comparator.comparing(sizes::get).reversed()).toList();
    }

    /**
     * What methods bring to a piece, with all that they call or override, and what overrides these. Where they name too many
     * classes' statics, it isn't looked at what else they bring.
     */
    private Growth growth(Piece piece, List<Method> roots) {
        Growth growth = new Growth(piece.had);
        List<Method> further = new ArrayList<>(roots);
        while (!further.isEmpty() && !piece.crowds(growth)) {
            Method each = further.remove(further.size() - 1);
            if (!piece.methods.contains(each) && growth.methods.add(each)) {
                growth.add(measure(each));
                further.addAll(next(each));
            }
        }
        return growth;
    }

    private List<Method> next(Method method) {
        return nexts.computeIfAbsent(method, each -> {
            Set<Method> all = new LinkedHashSet<>();
            if (!cut.contains(each)) {
                all.addAll(each.overridden());
                all.addAll(callees.of(each));
            }
            calls(each.body(), all);
            return List.copyOf(all);
        });
    }

    private static void calls(Part part, Set<Method> called) {
        if (part instanceof Part.Call call) {
            called.add(call.target());
        }
        part.parts().forEach(each -> calls(each, called));
    }

    /** How many bytes a method takes. */
    int bytes(Method method) {
        return measure(method).bytes();
    }

    /** A method counts as compound now: it has another body, and it doesn't matter what overrides it. */
    void cut(Method method) {
        cut.add(method);
        measures.remove(method);
        nexts.remove(method);
    }

    private Measure measure(Method method) {
        return measures.computeIfAbsent(method, each -> {
            Writer writer = writer();
            return new Measure(writer.size(each), writer.somes(), narrow ? new Frame().add(each) : new Frame());
        });
    }

    /** About the bytes of a class without its own fields: its constructor has the final fields of those above it. */
    private int length(Shape shape) {
        int bytes = 2 * length(shape.name()) + DECLARED_BYTES;
        for (Shape each = shape.parent(); each != null; each = each.parent()) {
            bytes += length(each.name()) + each.fields().stream().filter(Field::used).mapToInt(this::inConstructor).sum();
        }
        return bytes;
    }

    /** About the bytes of a field. */
    private int length(Field field) {
        int guard = field.guard() == null ? 0 : field.guard().lock().stream().mapToInt(each -> length(each.name()) + 1).sum();
        return length(field.name()) + typeLength(field) + DECLARED_BYTES + guard + inConstructor(field);
    }

    private int inConstructor(Field field) {
        return field.fixed() ? 3 * length(field.name()) + typeLength(field) + FINAL_BYTES : 0;
    }

    private int typeLength(Field field) {
        return field.type() == null ? 3 : length(field.type().name());
    }

    private int length(String name) {
        return (aliases == null ? name : aliases.of(name)).length();
    }

    /** The methods of one text, with about the length of that. */
    private final class Piece {
        private final Set<Method> methods = new LinkedHashSet<>();
        private final Set<Object> had = new HashSet<>();
        private int size = frame + SPARE_BYTES;
        private int statics;

        /** How many bytes there are too many with further methods; at least one where too many classes' statics are named. */
        int excess(Growth more) {
            int bytes = size + more.bytes - Checker.MOST_BYTES;
            return crowds(more) ? Math.max(1, bytes) : bytes;
        }

        /** Whether further methods name more classes' statics than the object that leads to these may have in one text. */
        boolean crowds(Growth more) {
            return crowded && statics + more.statics > Limits.MOST_FINAL;
        }

        void add(Growth more) {
            statics += more.statics;
            size += more.bytes;
            methods.addAll(more.methods);
            had.addAll(more.further);
        }
    }

    /** What further methods bring to a text: their bytes, and those of the lines, classes and fields that it hasn't yet. */
    private final class Growth {
        private final Set<Method> methods = new LinkedHashSet<>();
        private final Set<Object> had;
        private final Set<Object> further = new HashSet<>();
        private int bytes;
        private int statics;

        /** Of nothing yet; {@code had} has what the text has. */
        Growth(Set<Object> had) {
            this.had = had;
        }

        void add(Measure measure) {
            bytes += measure.bytes();
            bytes += further(measure.somes()).mapToInt(line -> line.length() + SOME_BYTES).sum();
            bytes += further(measure.frame().shapes()).mapToInt(shape ->
                sizes.computeIfAbsent(shape, Pieces.this::length)).sum();
            further(measure.frame().fields()).forEach(field -> {
                bytes += length(field);
                statics += field.owner() == program.statics() ? 1 : 0;
            });
        }

        private <T> Stream<T> further(Collection<T> all) {
            return all.stream().filter(each -> !had.contains(each) && further.add(each));
        }
    }
}
