package atomic.java.certainty;

import atomic.java.certainty.Event.Hold;
import atomic.java.passes.Callees;
import atomic.java.program.Program;
import atomic.java.program.Touch;
import atomic.java.skeleton.Field;
import atomic.java.skeleton.Method;
import atomic.java.skeleton.Part;
import atomic.java.skeleton.Path;
import atomic.java.skeleton.Place;
import atomic.java.skeleton.Shape;
import java.util.ArrayList;
import java.util.Collections;
import java.util.HashMap;
import java.util.HashSet;
import java.util.IdentityHashMap;
import java.util.List;
import java.util.Map;
import java.util.Set;
import java.util.regex.Pattern;
import java.util.stream.Collectors;

/**
 * What a method does, one event behind the other, with what the methods do that it calls. A loop is two turns, and
 * an endless one is one turn, since those before the last may have been attempts. Of a long method the beginning is enough:
 * what isn't seen is no reason for anything.
 */
final class Course {
    private static final int MOST_EVENTS = 160;
    private static final int MOST_PARTS = 20_000;
    private static final int DEEPEST = 8;
    private static final Pattern LOCKS = Pattern.compile("=\\w*Lock\\.(un)?lock\\w*");

    private final Method method;
    private final Callees callees;
    private final Map<Place, Touch> touches;
    private final Set<Place> endless;
    private final Shape library;
    private final Set<Method> others;
    private final List<Event> events = new ArrayList<>();
    private final Map<Event, Boolean> looks = new IdentityHashMap<>();
    private final Set<Hold> taken = new HashSet<>();
    /**
     * The questions that a region of the method itself asks, by its number: behind the look at a thing a branch follows before
     * the lock is given back. What a method asks that others may call as well is its own question, and not this one again.
     */
    private final Map<Integer, Set<Object>> asked = new HashMap<>();
    private final Map<Integer, Integer> askedUpTo = new HashMap<>();
    private final Map<Integer, Integer> again = new HashMap<>();
    private final Map<Object, List<Event>> byThing = new HashMap<>();
    private final Set<Object> compared = new HashSet<>();
    private final List<Hold> held = new ArrayList<>();
    private final Set<Hold> own = new HashSet<>();
    /** The methods whose bodies are being gone through, and how many locks were held where each was called. */
    private final Map<Method, Integer> entered = new HashMap<>();
    private final Map<Integer, Integer> branches = new HashMap<>();
    /** What is held, and the branches, as the next event has them; null where it differs from those of the last one. */
    private List<Hold> heldNow;
    private Map<Integer, Integer> branchesNow;
    private final Program program;
    private Owners owners;
    private boolean dark;
    private int numbers;
    private int inOthers;
    private int parts;

    Course(Method method, Callees callees, Set<Method> others, Program program) {
        this.method = method;
        this.callees = callees;
        this.others = others;
        this.program = program;
        touches = program.touches();
        endless = program.endless();
        library = program.helpers();
        owners = Owners.of(method);
        method.required().forEach(each -> held.add(new Hold(numbers++, each, Part.Mode.EXCLUSIVE, owners.of(each))));
        taken.addAll(held);
        part(method.body(), 0);
    }

    /** The method that it is of. */
    Method method() {
        return method;
    }

    /** The events in their order. */
    List<Event> events() {
        return events;
    }

    /** Whether another method never runs by itself on an object like this one, whose class has one of its own in its place. */
    boolean replaces(Method other) {
        Shape mine = method.owner();
        return mine != other.owner() && mine.fits(other.owner())
            && mine.methods().stream().anyMatch(each -> each.overridden().contains(other));
    }

    /** Whether it isn't known what is held: a lock is taken in no form that is known, or by a method that calls itself. */
    boolean isDark() {
        return dark;
    }

    /** Whether some run takes a lock that isn't to be had while these are held. */
    boolean isKeptOut(List<Hold> others) {
        for (Hold other : others) {
            for (Hold each : taken) {
                if (other.keepsOut(each)) {
                    return true;
                }
            }
        }
        return false;
    }

    /** The same where the method is called on the object of a parameter, and other names are those of other objects. */
    boolean isKeptOut(List<Hold> others, Path.Root called) {
        return others.stream().anyMatch(other -> taken.stream().anyMatch(each -> other.keepsOut(each, called)));
    }

    /** Whether there is one change, which adds what isn't there or sets a flag, and else nothing but looks at the same. */
    boolean addsOne() {
        List<Event> changes = events.stream().filter(Event::writes).toList();
        return changes.size() == 1 && (changes.get(0).kind().adds() || changes.get(0).kind() == Touch.Kind.SET)
            && byThing.size() == 1;
    }

    /** The events of one thing. */
    List<Event> events(Object thing) {
        return byThing.getOrDefault(thing, List.of());
    }

    /**
     * The first event behind this one that stands in a region in which this one doesn't stand, and which asks again what this
     * one looked at, or what was looked at together with it under one lock; behind a look-up, whether it asks anything.
     */
    int askedAgain(int first) {
        return again.computeIfAbsent(first, key -> {
            Map<Integer, Set<Object>> beside = new HashMap<>();
            int next = first + 1;
            while (next < events.size() && !asksAgain(events.get(first), events.get(next), beside)) {
                next++;
            }
            return next;
        });
    }

    private boolean asksAgain(Event first, Event second, Map<Integer, Set<Object>> beside) {
        int common = first.around(second).size();
        return second.held().subList(common, second.held().size()).stream()
            .map(hold -> asked.getOrDefault(hold.number(), Set.of())).anyMatch(things -> !things.isEmpty()
                && (first.finds() || things.contains(first.thing()) || !Collections.disjoint(things,
                    beside.computeIfAbsent(common, outer -> together(first, outer)))));
    }

    /** What is looked at in the same regions as an event, of those that are not among the outer ones. */
    private Set<Object> together(Event event, int outer) {
        return event.held().size() <= outer ? Set.of() : events.stream().filter(each -> !each.writes()
            && each.around(event).size() > outer).map(Event::thing).collect(Collectors.toSet());
    }

    /** Whether an event is a look, and more than the first half of {@code n++}, or a change that tells what was there. */
    boolean looks(Event event) {
        return looks.computeIfAbsent(event, this::isLook);
    }

    private boolean isLook(Event event) {
        int next = events.indexOf(event) + 1;
        Event after = next < events.size() ? events.get(next) : event;
        return event.draws() || !event.writes() && !(after.writes() && after.isSame(event) && after.branches().equals(event.branches()));
    }

    /** Whether some change of a thing is made only if nobody came in between. */
    boolean compares(Object thing) {
        return compared.contains(thing);
    }

    private void part(Part part, int depth) {
        if (events.size() >= MOST_EVENTS || ++parts > MOST_PARTS) {
            return;
        }
        if (part instanceof Part.Access access) {
            Touch touch = touches.get(access.place());
            Touch.Kind kind = access.write() ? Touch.Kind.CHANGE : Touch.Kind.LOOK;
            boolean known = touch != null && touch.kind().writes() == access.write();
            if (!lacksGuard(access)) {
                Touch made = known ? touch : new Touch(access.field(), kind, "");
                event(access.field(), made, owners.of(access.receiver()));
            }
        } else if (part instanceof Part.Call call) {
            call(call, depth);
        } else if (part instanceof Part.Region region && region.mode() != Part.Mode.NONE) {
            Hold hold = new Hold(numbers++, region.lock(), region.mode(), owners.of(region.lock()));
            taken.add(hold);
            held.add(hold);
            heldNow = null;
            if (inOthers == 0) {
                own.add(hold);
            }
            part(region.body(), depth);
            held.remove(hold);
            heldNow = null;
            own.remove(hold);
        } else if (part instanceof Part.Either either) {
            branch(List.of(() -> part(either.left(), depth), () -> part(either.right(), depth)));
        } else if (part instanceof Part.Repeat repeat) {
            part(repeat.body(), depth);
            if (!endless.contains(repeat.place())) {
                part(repeat.body(), depth);
            }
        } else {
            part.parts().forEach(each -> part(each, depth));
        }
    }

    /** Whether an access surely lacks its guard: that is an error by itself, and no reason for another one. */
    private boolean lacksGuard(Part.Access access) {
        Field.Guard guard = access.field().guard();
        return guard != null && (access.write() || !guard.writesOnly())
            && held.stream().noneMatch(each -> each.mayGuard(access.field()));
    }

    private void event(Object thing, Touch touch, Path.Root owner) {
        heldNow = heldNow == null ? List.copyOf(held) : heldNow;
        branchesNow = branchesNow == null ? Map.copyOf(branches) : branchesNow;
        Event made = new Event(thing, touch.kind(), touch.asked(), owner, heldNow, branchesNow);
        events.add(made);
        byThing.computeIfAbsent(thing, key -> new ArrayList<>()).add(made);
        if (made.compares() || made.kind() == Touch.Kind.RETRY || made.draws()) {
            compared.add(thing);
        }
    }

    private void call(Part.Call call, int depth) {
        if (call.target().owner() == library) {
            dark = dark || LOCKS.matcher(program.names().shown(call.target().name())).matches();
            Touch touch = touches.get(call.place());
            if (touch != null) {
                // What is several steps is two events, unless it changes one thing at one moment.
                List<Part> steps = steps(call.target().body());
                (touch.kind().changesOnce() ? steps.subList(0, 1) : steps).forEach(each -> event(touch.object(), touch, null));
            }
        } else if (depth < DEEPEST) {
            Integer before = entered.putIfAbsent(call.target(), held.size());
            dark = dark || before != null && held.size() > before;
            boolean other = others.contains(call.target());
            inOthers += other ? 1 : 0;
            bodies(call, depth + 1);
            inOthers -= other ? 1 : 0;
            if (before == null) {
                entered.remove(call.target());
            }
        }
    }

    private void bodies(Part.Call call, int depth) {
        List<Method> all = callees.of(call.target());
        if (all.size() == 1) {
            body(call, all.get(0), depth);
        } else {
            branch(all.stream().<Runnable>map(each -> () -> body(call, each, depth)).toList());
        }
    }

    private void body(Part.Call call, Method callee, int depth) {
        Owners before = owners;
        owners = before.within(call, callee);
        part(callee.body(), depth);
        owners = before;
    }

    /** A branch follows behind what was looked at in a region. */
    private void ask(Hold hold) {
        int begun = askedUpTo.getOrDefault(hold.number(), 0);
        events.subList(begun, events.size()).stream().filter(each -> !each.writes() && each.held().contains(hold))
            .forEach(each -> asked.computeIfAbsent(hold.number(), key -> new HashSet<>()).add(each.thing()));
        askedUpTo.put(hold.number(), events.size());
    }

    private static List<Part> steps(Part body) {
        return body instanceof Part.Sequence ? body.parts() : List.of(body);
    }

    private void branch(List<Runnable> sides) {
        own.forEach(this::ask);
        int number = numbers++;
        for (int side = 0; side < sides.size(); side++) {
            branches.put(number, side);
            branchesNow = null;
            sides.get(side).run();
        }
        branches.remove(number);
        branchesNow = null;
    }
}
