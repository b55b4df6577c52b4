package atomic.java.certainty;

import atomic.java.passes.Callees;
import atomic.java.program.Program;
import atomic.java.program.Touch;
import atomic.java.skeleton.Field;
import atomic.java.skeleton.Method;
import atomic.java.skeleton.Path;
import java.util.ArrayList;
import java.util.Collection;
import java.util.HashMap;
import java.util.IdentityHashMap;
import java.util.LinkedHashSet;
import java.util.List;
import java.util.Map;
import java.util.Set;
import java.util.function.BiPredicate;
import java.util.function.Predicate;

/**
 * Whether somebody can tell that a method was interrupted. A reason to believe so is another method, or the same one in
 * another thread, that may run as a whole between two events of the method: it needs no lock that is held there, it has
 * a conflict with the first event, so that it comes behind the method, and one with the second, so that it comes in front.
 * So it is with one change of another method, of the field that both events touch and the first one looks at, which that
 * method makes while it holds no lock that is held there: what it does before may come before the first event.
 * The closed list of such pairs of events:
 * <ul>
 * <li>a look and a later change of the same, and the other one changes it too: check-then-act, and the lost update;</li>
 * <li>two changes, and the other one looks at both: a torn pair; to count up is no look;</li>
 * <li>a change of one thing and a later look at another, and the other one looks at the first and changes the second;</li>
 * <li>two looks, and the other one changes both: a torn look;</li>
 * <li>two looks, each made whatever the other tells, of which one method changes one and another one then the other;</li>
 * <li>a look at one thing and a change of another, and the other method changes the one and touches the other.</li>
 * </ul>
 * What adds what isn't there also finds what is: so one that takes it out has a conflict with it.
 * <p>
 * No reason is a look that a region asks again before the second event, by itself or by what was looked at with it; a turn
 * that tries again where somebody came in between; a look-up of what is worked on then, where the other method only adds, or
 * where a region asks the found one anything; two look-ups of two things, of which the other method changes one; two look-ups in
 * what the other method adds one thing to; the making of an object where it is wanted first, for who only looks; what is
 * added, and then filled, for who looks it up; what is done with an object that was dropped; plain data
 * that a later change publishes, and that the other method only looks at behind a test of that; the way to a node through
 * atomic references that are only changed where nobody came in between; a method that gives nothing, and only adds one thing
 * where it isn't; and all of a method that takes a lock in no form that is known, or calls itself while it holds one more.
 */
public final class Interruptions {
    /**
     * How often another method is held against a pair of events, at most: behind that no reason is seen. There is a share for
     * each method besides, so that what is told of a class hardly depends on how many others are judged with it.
     */
    private static final int MOST_LOOKS = 100_000;
    private static final int LOOKS_OF_EACH = 500;
    private static final int MOST_LOOKS_OF_ONE = 5_000;
    private static final int MOST_PAIRS = 50_000;

    private final Program program;
    private final Callees callees;
    private final Set<Method> others;
    private final Predicate<Method> silent;
    private final Map<Method, Course> courses = new HashMap<>();
    private final Map<Object, Set<Course>> byThing = new HashMap<>();
    private final Map<Pair, List<Course>> byBoth = new HashMap<>();
    private final Map<Question, Map<Course, Boolean>> told = new HashMap<>();
    private int looks;

    /** Two things that a method touches. */
    private record Pair(Object one, Object two) { }

    /** What is asked of other methods for two events: whether they have a conflict with both. Many pairs ask the same. */
    private record Question(Pair things, boolean changesOne, boolean changesTwo, boolean found, boolean twice,
            boolean apart, boolean publishes, boolean adds, boolean fills, boolean walks, boolean ofThis) {

        /** Where {@code ofThis} is set, the other method is called on the object of the events, and no field of another one counts. */
        static Question of(Event one, Event two, boolean ofThis) {
            return new Question(new Pair(one.thing(), two.thing()), one.writes(), two.writes(),
                one.finds() && !one.isSame(two), one.finds() && two.finds(), !one.asked().equals(two.asked()),
                one.isPlain() && !two.isPlain() && one.writes(), one.kind() == Touch.Kind.ADD,
                one.kind() == Touch.Kind.ADD && one.leadsTo(two),
                one.walksTo(two) && (!one.writes() || one.kind().tries()), ofThis);
        }

        /** Whether an event of a course has a conflict with the first one. */
        boolean isFirst(Course course, Event each) {
            return (!ofThis || each.isOfThis()) && (changesOne
                ? !walks && !(fills && each.finds()) && (course.looks(each) || adds && each.takes())
                : each.writes() && !(found && each.kind().addsAlone()) && !(walks && each.kind().tries()));
        }

        /** Whether an event of a course has a conflict with the second one. */
        boolean isSecond(Course course, Event each) {
            return (!ofThis || each.isOfThis()) && (changesTwo ? !changesOne || course.looks(each) : each.writes());
        }

        /** Whether one change stands against two look-ups, which tell the same in front of it and behind it. */
        boolean isFoundTwice(Event each, Event other) {
            return twice && each == other && (apart || each.kind().addsAlone());
        }
    }

    /** The methods of a program; {@code others} are those that other threads may call, {@code silent} those that give nothing. */
    public Interruptions(Program program, Collection<Method> others, Predicate<Method> silent) {
        this.program = program;
        this.silent = silent;
        List<Method> all = new ArrayList<>();
        program.shapes().forEach(shape -> all.addAll(shape.methods()));
        callees = new Callees(all);
        this.others = new LinkedHashSet<>(others);
        this.others.retainAll(all);
    }

    /**
     * What may run in the middle of this method so that no order of whole calls gives the same: a method, or one and then
     * another. There is none where none is seen. Two events of one thing come first, and those of a parameter's object come
     * once more: of a long method the others may have taken all looks.
     */
    public List<Method> witnesses(Method method) {
        Course course = course(method);
        if (course.isDark() || silent.test(method) && course.addsOne()) {
            return List.of();
        }
        int begun = looks;
        List<Method> found = witnesses(course, Event::isSame, begun + MOST_LOOKS_OF_ONE);
        if (found.isEmpty()) {
            found = witnesses(course, (one, two) -> !one.isSame(two), begun + MOST_LOOKS_OF_ONE);
        }
        return found.isEmpty() ? witnesses(course, (one, two) -> one.parameter(two) != null, looks + MOST_LOOKS_OF_ONE) : found;
    }

    /** What tells apart two events of such a pair. */
    private List<Method> witnesses(Course course, BiPredicate<Event, Event> pairs, int mostOfOne) {
        int most = Math.min(MOST_LOOKS + LOOKS_OF_EACH * others.size(), mostOfOne);
        List<Event> events = course.events();
        for (int second = 1; second < events.size(); second++) {
            for (int first = 0; first < second && looks < most; first++) {
                Event one = events.get(first);
                Event two = events.get(second);
                List<Method> found = pairs.test(one, two) && one.meets(two) && counts(course, first, second)
                    ? reason(course, one, two) : List.of();
                if (!found.isEmpty()) {
                    return found;
                }
            }
        }
        return List.of();
    }

    private Course course(Method method) {
        return courses.computeIfAbsent(method, key -> new Course(key, callees, others, program));
    }

    /** Whether a pair of events isn't one of those that are no reason. */
    private static boolean counts(Course course, int first, int second) {
        Event one = course.events().get(first);
        Event two = course.events().get(second);
        boolean tried = one.isSame(two) && course.compares(one.thing()) && (one.compares() || !one.writes());
        boolean half = !one.writes() && !course.looks(one) && second != first + 1;
        boolean made = one.kind() == Touch.Kind.MAKE || two.kind() == Touch.Kind.MAKE && one.writes()
            || one.kind() == Touch.Kind.SET && one.isSame(two) || one.kind() == Touch.Kind.DROP && one.leadsTo(two);
        return !tried && !half && !made && (one.writes() || course.askedAgain(first) > second);
    }

    /** A method that tells the two steps apart; else one of two that change, one by one, the things that are looked at. */
    private List<Method> reason(Course course, Event one, Event two) {
        Method found = between(course, one, two);
        if (found != null) {
            return List.of(found);
        }
        return needsBoth(course, one, two) ? oneByOne(course, one, two) : List.of();
    }

    /** What the other methods do that touch both. */
    private List<Course> touching(Event one, Event two) {
        if (byBoth.size() > MOST_PAIRS) {
            byBoth.clear();
        }
        return byBoth.computeIfAbsent(new Pair(one.thing(), two.thing()), key -> {
            Set<Course> both = touching(two);
            return touching(one).stream().filter(both::contains).toList();
        });
    }

    private Set<Course> touching(Event event) {
        if (byThing.isEmpty()) {
            others.stream().map(this::course).forEach(other -> other.events().forEach(each ->
                byThing.computeIfAbsent(each.thing(), key -> new LinkedHashSet<>()).add(other)));
        }
        return byThing.getOrDefault(event.thing(), Set.of());
    }

    /** Whether two looks at two things are both made whatever the first one tells: then what the method gives needs both. */
    private static boolean needsBoth(Course course, Event one, Event two) {
        return one.kind() == Touch.Kind.LOOK && two.kind() == Touch.Kind.LOOK && !one.isSame(two)
            && !one.walksTo(two) && !one.leadsTo(two) && one.branches().equals(two.branches()) && course.looks(one) && course.looks(two);
    }

    /** A method that changes the first thing, where another one then changes the second: so nobody ever had the two. */
    private List<Method> oneByOne(Course mine, Event one, Event two) {
        List<Event.Hold> around = one.around(two);
        Method first = changing(mine, one, around);
        Method then = first == null ? null : changing(mine, two, around);
        return then == null ? List.of() : List.of(first, then);
    }

    private Method changing(Course mine, Event event, List<Event.Hold> around) {
        return touching(event).stream().filter(course -> {
            looks++;
            return !mine.replaces(course.method()) && !course.isDark() && !course.isKeptOut(around)
                && course.events().stream().anyMatch(other -> other.writes() && other.isSame(event));
        }).findFirst().map(Course::method).orElse(null);
    }

    private Method between(Course mine, Event one, Event two) {
        List<Event.Hold> around = one.around(two);
        List<Course> all = touching(one, two);
        if (all.isEmpty()) {
            return null;
        }
        Question asked = Question.of(one, two, false);
        Map<Course, Boolean> answers = answers(asked);
        for (Course course : all) {
            looks++;
            boolean counts = !course.isDark() && !mine.replaces(course.method());
            if (counts && (course.isKeptOut(around) ? tellsElsewhere(course, one, two, around)
                    : answers.computeIfAbsent(course, key -> tells(key, asked)))) {
                return course.method();
            }
        }
        return null;
    }

    /** Whether a method that is kept out between two events, where it is called on their object, has a conflict with both otherwise. */
    private boolean tellsElsewhere(Course course, Event one, Event two, List<Event.Hold> around) {
        if (one.parameter(two) != null && !course.isKeptOut(around, one.owner())) {
            Question asked = Question.of(one, two, true);
            if (answers(asked).computeIfAbsent(course, key -> tells(key, asked))) {
                return true;
            }
        }
        return changesOutside(course, one, two, around);
    }

    private Map<Course, Boolean> answers(Question asked) {
        return told.computeIfAbsent(asked, key -> new IdentityHashMap<>());
    }

    /**
     * Whether a method that takes a lock which is held around the two events changes the field that both touch while it holds
     * none of these: it may have come that far before the first event, whatever it does then. Of an object that changes as a
     * whole, such as an atomic counter, what was asked may still hold; and two nodes are rarely the same one.
     */
    private static boolean changesOutside(Course course, Event one, Event two, List<Event.Hold> around) {
        return !one.writes() && one.thing() instanceof Field field && !field.ofNodes() && one.isSame(two)
            && course.events(one.thing()).stream().anyMatch(each -> each.writes()
                && each.held().stream().noneMatch(hold -> around.stream().anyMatch(hold::keepsOut)));
    }

    /** Whether a method that does these events has a conflict with both. */
    private static boolean tells(Course course, Question asked) {
        List<Event> firsts = course.events(asked.things().one()).stream().filter(each -> asked.isFirst(course, each)).toList();
        List<Event> seconds = firsts.isEmpty() ? List.of()
            : course.events(asked.things().two()).stream().filter(each -> asked.isSecond(course, each)).toList();
        return firsts.stream().anyMatch(each -> seconds.stream().anyMatch(other -> each.meets(other)
            && !asked.isFoundTwice(each, other) && !(asked.publishes() && isPublished(each, other))));
    }

    /** Whether data is only looked at where what publishes it tells of it. */
    private static boolean isPublished(Event data, Event flag) {
        return !data.writes() && !flag.writes() && data.isBehindTestOf(flag);
    }
}
