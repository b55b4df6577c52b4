package atomic.java.driver;

import atomic.java.certainty.Interruptions;
import atomic.java.options.Options;
import atomic.java.options.Refusal;
import atomic.java.passes.Callees;
import atomic.java.passes.Marking;
import atomic.java.places.Answer;
import atomic.java.places.Notes;
import atomic.java.places.Text;
import atomic.java.places.Writer;
import atomic.java.program.Program;
import atomic.java.skeleton.Method;
import atomic.java.skeleton.Part;
import atomic.java.skeleton.Shape;
import atomic.java.translation.Methods;
import java.util.ArrayDeque;
import java.util.ArrayList;
import java.util.Comparator;
import java.util.Deque;
import java.util.HashMap;
import java.util.LinkedHashMap;
import java.util.LinkedHashSet;
import java.util.List;
import java.util.Map;
import java.util.Set;
import java.util.regex.Matcher;
import java.util.regex.Pattern;
import java.util.stream.Collectors;

/**
 * Has the skeleton judged. One that is larger than the checker reads is judged in pieces, each with all that its methods
 * call. A method that breaks a limit of the checker counts as compound, and that is told. A fixed number of pieces wait for
 * their answers, and these are taken in the order of the pieces, so that nothing depends on which comes first.
 */
final class Judging {
    private static final Pattern LISTED = Pattern.compile("(\\d+:\\d+): (\\w+): (\\S+) 0");
    private static final Pattern REFUSED = Pattern.compile("(\\d+):(\\d+): error: (.*)");
    private static final String COUNTED = " [more-errors]";
    private static final int MOST_REPAIRS = 2_000;

    /** Of so many parts of what is too much for one text, one is taken out before the rest is looked at again. */
    private static final int CUT_PARTS = 4;

    /** The most pieces that wait for their answers: more would only take memory. */
    private static final int MOST_WAITING = 32;

    private final Program program;
    private final Methods methods;
    private final Checker checker;
    private final Callees callees;
    private final Deque<Piece> asked = new ArrayDeque<>();
    private final Set<Method> reduced = new LinkedHashSet<>();
    private final Map<String, List<String>> blocks = new LinkedHashMap<>();
    private final List<Text> texts = new ArrayList<>();
    private final Map<String, String> found = new HashMap<>();
    private final Pieces pieces;
    private List<String> inOrder;
    private Method pastLimit;
    private int accepted;
    private int repairs;
    private int status;

    Judging(Program program, Methods methods, Checker checker) {
        this.program = program;
        this.methods = methods;
        this.checker = checker;
        List<Method> all = new ArrayList<>();
        program.shapes().forEach(shape -> all.addAll(shape.methods()));
        callees = new Callees(all);
        pieces = new Pieces(program, callees);
    }

    /** A text that is being judged: the methods that it has, and how many repairs there were before it. */
    private final class Piece {
        private final Set<Method> wanted;
        private final boolean listed;
        private Writer writer;
        private Text text;
        private Checker.Question question;
        private int repaired;

        Piece(Set<Method> wanted, boolean listed) {
            this.wanted = wanted;
            this.listed = listed;
            write();
        }

        void write() {
            if (pastLimit != null && wanted.stream().anyMatch(reduced::contains)) {
                wanted.add(pastLimit);
            }
            writer = pieces.writer();
            text = pieces.text(writer, wanted);
            repaired = repairs;
            // What is refused once may be refused again: only what is accepted is listed then.
            question = checker.ask(text.bytes(), listed && question == null);
        }
    }

    /** Begins to judge all methods. */
    void ask() {
        ask(roots(), true);
    }

    /** Judges all methods. */
    void askAndFinish() {
        ask();
        finish();
    }

    /** Begins to judge the methods at which these errors were told, and will tell of errors alone. */
    void ask(List<String> errors) {
        Set<String> places = places(errors);
        ask(roots().stream().filter(each -> places.contains(String.valueOf(each.place()))).toList(), false);
    }

    private void ask(List<Method> all, boolean listed) {
        pieces.begin(all);
        do {
            if (asked.size() == MOST_WAITING) {
                judge(asked.remove());
            }
            asked.add(new Piece(pieces.next(this::cut), listed));
        } while (pieces.hasNext());
    }

    /** Waits for the first text that is refused; whether there is one. */
    boolean isRefused() {
        return status != 0 || asked.stream().anyMatch(each -> each.question.explained().status() != 0);
    }

    /** Waits for all answers. */
    void finish() {
        while (!asked.isEmpty()) {
            judge(asked.remove());
        }
    }

    /**
     * Of these places of methods with an error, those where somebody can tell that another thread came in between: what ran
     * there.
     */
    Map<String, String> witnesses(Set<String> places) {
        Interruptions interruptions = new Interruptions(program, methods.callable(), methods::givesNothing);
        Map<String, String> witnesses = new HashMap<>();
        for (Method each : roots()) {
            String place = String.valueOf(each.place());
            List<Method> found = places.contains(place) ? interruptions.witnesses(each) : List.of();
            if (!found.isEmpty()) {
                witnesses.putIfAbsent(place, found.get(0).place() + Certainty.between(found.stream().map(this::shown).toList()));
            }
        }
        return witnesses;
    }

    /** What Java calls a method. */
    private String shown(Method method) {
        return program.names().shown(method.owner().name()) + "." + program.names().shown(method.name());
    }

    private static Set<String> places(List<String> errors) {
        return errors.stream().map(Certainty::place).filter(place -> !place.isEmpty()).collect(Collectors.toSet());
    }

    private List<Method> roots() {
        List<Method> roots = new ArrayList<>();
        Set<Method> judged = methods.roots();
        for (Shape shape : program.shapes()) {
            shape.methods().stream().filter(judged::contains).forEach(roots::add);
        }
        return roots;
    }

    private void judge(Piece piece) {
        for (int k = 0; k < MOST_REPAIRS; k++) {
            Checker.Answer told = piece.question.explained();
            if (told.status() != Options.NOT_JAVA && told.status() != Options.TOO_LARGE) {
                accept(piece, told, piece.listed ? piece.question.listed() : new Checker.Answer(0, List.of()));
                return;
            }
            if (piece.repaired == repairs) {
                repair(piece.writer, told, piece.wanted);
            }
            piece.write();
        }
        throw new Refusal(Options.TOO_LARGE, "the sources break too many limits of the checker");
    }

    private void accept(Piece piece, Checker.Answer told, Checker.Answer listed) {
        status = Math.max(status, told.status());
        accepted++;
        if (program.options().emit() != null) {
            texts.add(piece.text);
        }
        List<String> all = new ArrayList<>(told.lines());
        if (all.removeIf(each -> each.endsWith(COUNTED))) {
            all.addAll(counted(piece, all));
        }
        Answer answer = new Answer(piece.text, program.names(), pieces::spelled);
        Certainty.blocks(answer.lines(all, this::isNew)).forEach(blocks::putIfAbsent);
        for (String line : listed.lines()) {
            Matcher parts = LISTED.matcher(line);
            if (parts.matches()) {
                found.put(pieces.spelled(parts.group(3)), parts.group(2));
            }
        }
    }

    /** Whether an error stands in no text before. What methods of many texts call stands in each of these. */
    private boolean isNew(String head) {
        return !blocks.containsKey(Certainty.key(head));
    }

    /**
     * The errors of methods that the checker only counts: those that are errors since they call one that is, beside the
     * first that is told. In Java each method that is refused is told at its place.
     */
    private List<String> counted(Piece piece, List<String> told) {
        Set<String> atomic = piece.wanted.stream().filter(Method::atomic).map(Judging::name).collect(Collectors.toSet());
        Set<String> heads = told.stream().filter(each -> each.contains(Certainty.ERROR))
            .map(each -> each.substring(0, each.indexOf(Certainty.ERROR))).collect(Collectors.toSet());
        List<String> more = new ArrayList<>();
        for (String line : piece.question.listed().lines()) {
            Matcher parts = LISTED.matcher(line);
            if (parts.matches() && parts.group(2).equals("error") && heads.add(parts.group(1))) {
                more.add(parts.group(1) + Certainty.ERROR + parts.group(3) + " is declared "
                    + (atomic.contains(pieces.spelled(parts.group(3))) ? "atomic" : "cmpd") + ", found error");
                more.add(parts.group(1) + ": note: calls a method that is an error itself");
            }
        }
        return more;
    }

    private static String name(Method method) {
        return method.owner().name() + "." + method.name();
    }

    /** Makes the method compound that the checker can't read. */
    private void repair(Writer writer, Checker.Answer told, Set<Method> wanted) {
        Matcher parts = REFUSED.matcher(told.lines().isEmpty() ? "" : told.lines().get(0));
        Method method = parts.matches() ? writer.method(Integer.parseInt(parts.group(1))) : largest(wanted);
        String kind = parts.matches() ? parts.group(3) : "too large";
        if (method == null || !reduced.add(method)) {
            throw new Refusal(Options.NO_CHECKER, "atomic_why can't read the skeleton: " + pieces.spelled(String.join("; ", told.lines()))
                + (parts.matches() ? ": " + writer.line(Integer.parseInt(parts.group(1))) : ""));
        }
        reduce(method, kind);
    }

    private Method largest(Set<Method> wanted) {
        return wanted.stream().filter(each -> !reduced.contains(each)).max(Comparator.comparingInt(pieces::bytes))
            .orElse(null);
    }

    /**
     * Makes the largest methods compound, where those that one calls are more than fits into one text. What only these call
     * is out of it then too, so a part of them is taken at a time.
     */
    private boolean cut(Set<Method> wanted, int excess) {
        List<Method> largest = wanted.stream().filter(each -> !reduced.contains(each))
            .sorted(Comparator.comparingInt(pieces::bytes).reversed()).toList();
        int rest = excess / CUT_PARTS;
        for (int k = 0; k < largest.size() && rest >= 0; k++) {
            Method method = largest.get(k);
            rest -= pieces.bytes(method);
            reduced.add(method);
            reduce(method, "too large");
        }
        return !largest.isEmpty();
    }

    private void reduce(Method method, String kind) {
        repairs++;
        if (method.place() != null) {
            program.notes().tell(Notes.Kind.APPROXIMATED, methods.origin(method), method.place(), "limit: the checker says "
                + kind + (kind.equals("bad override") ? ", so no caller is taken to hold a lock for it"
                : ", so the method counts as compound, and what it touches isn't judged"));
        }
        if (kind.equals("bad override")) {
            align(method);
            return;
        }
        if (program.sure()) {
            method.loose().clear();
            method.body(Part.NOTHING);
            pieces.cut(method);
            return;
        }
        Part.Call unknown = methods.several("what is past a limit of the checker", method.place());
        pastLimit = unknown.target();
        if (!program.helpers().methods().contains(pastLimit)) {
            program.helpers().methods().add(pastLimit);
        }
        Marking.run(List.of(pastLimit));
        method.loose().clear();
        method.body(unknown);
        pieces.cut(method);
    }

    /** Methods that override each other and don't agree require nothing, and all promise what one of them promises. */
    private void align(Method method) {
        Set<Method> family = new LinkedHashSet<>(callees.of(method));
        Set<Method> next = new LinkedHashSet<>(method.overridden());
        while (!next.isEmpty()) {
            Method above = next.iterator().next();
            next.remove(above);
            family.addAll(callees.of(above));
            next.addAll(above.overridden());
        }
        boolean promised = family.stream().anyMatch(Method::atomic);
        for (Method each : family) {
            each.required().clear();
            if (promised) {
                each.promiseAtomic();
            }
        }
    }

    int status() {
        return status;
    }

    /** What was told: of several texts the errors in the order of the sources, each once. */
    List<String> lines() {
        inOrder = inOrder != null ? inOrder : accepted > 1 ? Certainty.inOrder(blocks)
            : blocks.values().stream().flatMap(List::stream).toList();
        return inOrder;
    }

    /** The texts that were judged, where they are asked for. */
    List<Text> texts() {
        return texts;
    }

    /** What a method of the skeleton was found to be. */
    String found(Method method) {
        return found.getOrDefault(name(method), "const");
    }
}
