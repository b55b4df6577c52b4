package atomic.java.passes;

import atomic.java.places.Notes;
import atomic.java.skeleton.Method;
import atomic.java.skeleton.Part;
import atomic.java.skeleton.Path;
import atomic.java.skeleton.Place;
import atomic.java.skeleton.Shape;
import java.util.Collection;
import java.util.HashMap;
import java.util.HashSet;
import java.util.LinkedHashMap;
import java.util.LinkedHashSet;
import java.util.List;
import java.util.Map;
import java.util.Set;
import java.util.function.Function;
import java.util.function.UnaryOperator;
import java.util.stream.Stream;

/**
 * Waits. A wait gives its lock back and takes it again. In a loop that only looks, at the beginning of a region, what came
 * before it is as if it hadn't been, so the wait is no step. Anywhere else, and where a caller may hold the lock, others can
 * see what was done before: the wait is compound.
 */
public final class Waiting {
    private final Collection<Method> methods;
    private final Notes notes;
    private final Function<Method, Object> origin;
    private final Part.Call compound;
    private boolean strict;
    private Doers writing;
    private final Map<Method, Set<Shape>> held = new HashMap<>();
    private final Callees callees;
    private UnaryOperator<Method> copier;

    /** The waits of all methods; {@code compound} is the call that a wait in another place becomes. */
    public Waiting(Collection<Method> methods, Notes notes, Function<Method, Object> origin, Part.Call compound) {
        this.methods = methods;
        this.notes = notes;
        this.origin = origin;
        this.compound = compound;
        callees = new Callees(methods);
    }

    /** Callers outside the files are taken to hold any lock. */
    public Waiting strictly(boolean strictly) {
        strict = strictly;
        return this;
    }

    /** A caller at hand that may hold the lock calls a copy of the method that waits, which this makes. */
    public Waiting apart(UnaryOperator<Method> copies) {
        copier = copies;
        return this;
    }

    /** Takes the waits out of all methods. */
    public void run() {
        if (methods.stream().noneMatch(method -> waits(method.body()))) {
            return;
        }
        writing = new Doers(methods, Waiting::isWrite);
        findHeld();
        if (copier != null) {
            findCopies();
        }
        for (Method method : methods) {
            if (waits(method.body())) {
                method.body(new Walk(method).part(method.body(), new State()));
            }
        }
    }

    /** Who holds the lock waits within his region, and who doesn't waits at its beginning: so these are two methods. */
    private void findCopies() {
        Map<Method, Method> copies = new LinkedHashMap<>();
        for (Method method : methods) {
            boolean alone = callees.of(method).size() == 1 && method.overridden().isEmpty() && method.required().isEmpty();
            if (alone && waitsFor(method.body()).anyMatch(lock -> isHeld(method, lock))) {
                Method copy = copier.apply(method);
                copy.closed(true);
                copies.put(method, copy);
            }
        }
        if (!copies.isEmpty()) {
            methods.addAll(copies.values());
            methods.forEach(method -> method.body(redirected(method.body(), held.getOrDefault(method, Set.of()), copies)));
            leaveOutUncalled(copies.keySet());
            writing = new Doers(methods, Waiting::isWrite);
            held.clear();
            findHeld();
        }
    }

    /**
     * Of methods that only code at hand calls, which now calls the copy each time, nobody runs the first one. One that promises
     * to be atomic is judged for those who hold nothing all the same.
     */
    private void leaveOutUncalled(Set<Method> first) {
        Set<Method> called = new HashSet<>();
        methods.forEach(method -> targets(method.body(), called));
        first.stream().filter(each -> each.closed() && !each.atomic() && !called.contains(each))
            .forEach(each -> each.body(Part.NOTHING));
    }

    private static void targets(Part part, Set<Method> called) {
        if (part instanceof Part.Call call) {
            called.add(call.target());
        }
        part.parts().forEach(each -> targets(each, called));
    }

    private static Stream<Path> waitsFor(Part part) {
        return part instanceof Part.Wait wait ? Stream.ofNullable(wait.lock())
            : part.parts().stream().flatMap(Waiting::waitsFor);
    }

    /** A part whose calls go to the copies, where one of these locks may be the one that is waited for. */
    private static Part redirected(Part part, Set<Shape> locks, Map<Method, Method> copies) {
        if (part instanceof Part.Call call && copies.containsKey(call.target())
                && waitsFor(call.target().body()).anyMatch(lock -> mayBe(locks, lock))) {
            return new Part.Call(call.receiver(), copies.get(call.target()), call.arguments(), call.place());
        }
        Set<Shape> inside = new HashSet<>(locks);
        if (part instanceof Part.Region region && region.lock() != null) {
            inside.add(region.lock().type());
        }
        return part.map(each -> redirected(each, inside, copies));
    }

    private boolean isHeld(Method method, Path lock) {
        return mayBe(held.get(method), lock);
    }

    private static boolean mayBe(Set<Shape> locks, Path lock) {
        return locks.stream().anyMatch(each -> each == null || each.fits(lock.type()) || lock.type().fits(each));
    }

    private static boolean waits(Part part) {
        return part instanceof Part.Wait || part.parts().stream().anyMatch(Waiting::waits);
    }

    private static boolean isWrite(Part part) {
        return part instanceof Part.Access access && access.write();
    }

    /** Whether a part only looks: no step of it writes. A lock that is given back again leaves nothing behind. */
    private boolean looks(Part part) {
        return !isWrite(part) && !(part instanceof Part.Call call && writing.mayCall(call.target()))
            && part.parts().stream().allMatch(this::looks);
    }

    /** The classes of the locks that callers of each method may hold. */
    private void findHeld() {
        methods.forEach(method -> {
            Set<Shape> all = new HashSet<>();
            method.required().forEach(path -> all.add(path.type()));
            held.put(method, all);
        });
        Map<Method, Map<Set<Shape>, Set<Method>>> calls = new HashMap<>();
        Set<Method> next = new LinkedHashSet<>(methods);
        while (!next.isEmpty()) {
            Method method = next.iterator().next();
            next.remove(method);
            calls.computeIfAbsent(method, this::calls).forEach((inside, called) -> {
                Set<Shape> locks = new HashSet<>(held.get(method));
                locks.addAll(inside);
                called.stream().filter(each -> held.containsKey(each) && held.get(each).addAll(locks)).forEach(next::add);
            });
        }
    }

    /** What a method calls, by the classes of the locks that it takes around that. */
    private Map<Set<Shape>, Set<Method>> calls(Method method) {
        Map<Set<Shape>, Set<Method>> calls = new LinkedHashMap<>();
        calls(method.body(), Set.of(), calls);
        return calls;
    }

    private void calls(Part part, Set<Shape> locks, Map<Set<Shape>, Set<Method>> calls) {
        if (part instanceof Part.Call call) {
            calls.computeIfAbsent(locks, key -> new LinkedHashSet<>()).addAll(callees.of(call.target()));
        }
        Set<Shape> inside = locks;
        if (part instanceof Part.Region region && region.lock() != null) {
            inside = new HashSet<>(locks);
            inside.add(region.lock().type());
        }
        for (Part each : part.parts()) {
            calls(each, inside, calls);
        }
    }

    /** What came before a place of a region. */
    private static final class State {
        private Path lock;
        private boolean touched;
        private boolean repeated;
        private boolean inRegion;

        /** A region within this one, which may be of the same lock. */
        State within(Path taken) {
            State inner = new State();
            inner.lock = taken;
            inner.touched = inRegion && touched;
            inner.repeated = inRegion && repeated;
            inner.inRegion = true;
            return inner;
        }
    }

    /** Goes through one method. */
    private final class Walk {
        private final Method method;
        private int refused;

        Walk(Method method) {
            this.method = method;
        }

        Part part(Part part, State state) {
            if (part instanceof Part.Wait wait) {
                return refuse(wait, "it stands in no loop that only looks");
            } else if (part instanceof Part.Region region && region.mode() != Part.Mode.NONE) {
                State inner = state.within(region.lock());
                Part body = part(region.body(), inner);
                state.touched = true;
                return new Part.Region(region.lock(), region.mode(), body, region.place());
            } else if (part instanceof Part.Repeat repeat && waits(repeat)) {
                return loop(repeat, state);
            } else if (part instanceof Part.Either either) {
                return branches(either, state);
            } else if (part instanceof Part.Access || part instanceof Part.Call) {
                state.touched = true;
                return part;
            }
            return part.map(each -> part(each, state));
        }

        private Part branches(Part.Either either, State state) {
            boolean before = state.touched;
            Part left = part(either.left(), state);
            boolean after = state.touched;
            state.touched = before;
            Part right = part(either.right(), state);
            state.touched |= after;
            return new Part.Either(left, right);
        }

        private Part loop(Part.Repeat repeat, State state) {
            if (looks(repeat.body())) {
                int before = refused;
                Part body = waitsOf(repeat.body(), state);
                state.touched = true;
                return before == refused ? new Part.Either(body, Part.NOTHING) : new Part.Repeat(body, repeat.place());
            }
            boolean before = state.repeated;
            state.repeated = true;
            Part body = part(repeat.body(), state);
            state.repeated = before;
            return new Part.Repeat(body, repeat.place());
        }

        private Part waitsOf(Part part, State state) {
            if (!(part instanceof Part.Wait wait)) {
                return part.map(each -> waitsOf(each, state));
            } else if (wait.lock() == null || !wait.lock().equals(state.lock)) {
                return refuse(wait, "its lock isn't the one of the region that it stands in");
            } else if (wait.kept() != null) {
                return refuse(wait, "a turn before it keeps something in " + wait.kept());
            } else if (state.touched || state.repeated) {
                return refuse(wait, "something was done before it in its region");
            } else if (mayBeHeld(wait.lock())) {
                return refuse(wait, "a caller may hold the lock");
            }
            if (strict) {
                return refuse(wait, "a caller outside these files may hold the lock");
            }
            tell(Notes.Kind.ASSUMED, wait.place(), "no caller outside these files holds the lock when this wait is reached");
            return Part.NOTHING;
        }

        private boolean mayBeHeld(Path lock) {
            return isHeld(method, lock);
        }

        private Part refuse(Part.Wait wait, String why) {
            refused++;
            tell(Notes.Kind.APPROXIMATED, wait.place(), "wait: others can see what was done before it, since " + why);
            return new Part.Call(compound.receiver(), compound.target(), List.of(), wait.place());
        }

        private void tell(Notes.Kind kind, Place place, String text) {
            notes.tell(kind, origin.apply(method), place, text);
        }
    }
}
