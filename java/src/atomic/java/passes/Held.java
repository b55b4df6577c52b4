package atomic.java.passes;

import atomic.java.skeleton.Field;
import atomic.java.skeleton.Method;
import atomic.java.skeleton.Part;
import atomic.java.skeleton.Path;
import atomic.java.skeleton.Value;
import java.util.Collection;
import java.util.HashMap;
import java.util.HashSet;
import java.util.LinkedHashSet;
import java.util.List;
import java.util.Map;
import java.util.Set;

/**
 * Which locks are held at each call and access. A method that is called from known places only is taken to be called with
 * what all of these hold. The checker judges what is made of this, so nothing rests on it.
 */
public final class Held {

    /** Who is told of each access, with the locks that are held there; those of readers apart. */
    public interface Visitor {
        void access(Method method, Part.Access access, Set<Path> held, Set<Path> shared);
    }

    private final Collection<Method> methods;
    private final Callees callees;
    private final Map<Method, Set<Path>> entry = new HashMap<>();
    private final Map<Method, Set<Path>> found = new HashMap<>();
    private final Set<Method> closed = new HashSet<>();
    /** Of the methods that override or are overridden, those furthest up: all of one kind find the same locks of their object. */
    private final Map<Method, Method> heads = new HashMap<>();
    private final Set<Method> waiting = new LinkedHashSet<>();

    public Held(Collection<Method> methods) {
        this.methods = methods;
        callees = new Callees(methods);
        methods.stream().filter(this::isClosed).forEach(closed::add);
        closed.stream().filter(each -> !callees.isAlone(head(each))).forEach(each -> heads.put(each, head(each)));
        settle();
    }

    /** What each method finds held; a method that nobody calls finds what it requires. */
    public Set<Path> entry(Method method) {
        Set<Path> known = entry.get(method);
        return known == null ? method.required() : known;
    }

    /** Each method hands on what it holds at its calls, and again where it turns out to hold less. */
    private void settle() {
        Set<Method> called = new HashSet<>();
        methods.forEach(method -> calls(method.body(), called));
        methods.stream().filter(method -> !closed.contains(method) || callees.of(heads.getOrDefault(method, method)).stream()
                .noneMatch(called::contains)).forEach(method -> {
            entry.put(method, new HashSet<>(method.required()));
            waiting.add(method);
        });
        while (!waiting.isEmpty()) {
            Method method = waiting.iterator().next();
            waiting.remove(method);
            walk(method.body(), entry.get(method), Set.of(), null);
        }
    }

    private static void calls(Part part, Set<Method> called) {
        if (part instanceof Part.Call call) {
            called.add(call.target());
        }
        part.parts().forEach(each -> calls(each, called));
    }

    /** Whether all calls of a method are known, and mean this method alone, or one of those that override it and are known too. */
    boolean isClosed(Method method) {
        Method head = head(method);
        return head != null && callees.of(head).stream().allMatch(each -> each.closed() && head(each) == head);
    }

    /** The method furthest up that a method overrides; null where there are two ways up. */
    private Method head(Method method) {
        Method each = method;
        while (each.overridden().size() == 1) {
            each = each.overridden().get(0);
        }
        return each.overridden().isEmpty() ? each : null;
    }

    /** Goes through all accesses. */
    public void visit(Visitor visitor) {
        for (Method method : methods) {
            walk(method.body(), entry(method), Set.of(), (ignored, access, held, shared) ->
                visitor.access(method, access, held, shared));
        }
    }

    private void walk(Part part, Set<Path> held, Set<Path> shared, Visitor visitor) {
        if (part instanceof Part.Access access && visitor != null) {
            visitor.access(null, access, held, shared);
        } else if (part instanceof Part.Call call && visitor == null && closed.contains(call.target())) {
            pass(call, held);
        } else if (part instanceof Part.Region region && region.lock() != null) {
            boolean reads = region.mode() == Part.Mode.SHARED && !held.contains(region.lock());
            walk(region.body(), with(held, region.lock()), reads ? with(shared, region.lock()) : shared, visitor);
            return;
        }
        part.parts().forEach(each -> walk(each, held, shared, visitor));
    }

    private static Set<Path> with(Set<Path> all, Path one) {
        Set<Path> more = new HashSet<>(all);
        more.add(one);
        return more;
    }

    /** What a callee finds held, in its own names: no more than each other call brings. */
    private void pass(Part.Call call, Set<Path> held) {
        Method callee = heads.getOrDefault(call.target(), call.target());
        Set<Path> inside = new HashSet<>();
        held.forEach(lock -> rename(lock, call.receiver(), self(callee), inside));
        for (int k = 0; k < callee.parameters().size() && k < call.arguments().size() && !heads.containsKey(callee); k++) {
            for (Path lock : held) {
                rename(lock, call.arguments().get(k), callee.parameters().get(k), inside);
            }
        }
        Set<Path> now = found.computeIfAbsent(callee, key -> inside);
        now.retainAll(inside);
        (heads.containsKey(callee) ? callees.of(callee) : List.of(callee)).forEach(each -> enter(each, now));
    }

    private static Path.Root self(Method method) {
        return new Path.Root(Path.Kind.THIS, "this", method.owner());
    }

    /** A method finds these locks held, and those that it requires. */
    private void enter(Method method, Set<Path> locks) {
        Set<Path> whole = new HashSet<>(method.required());
        locks.forEach(lock -> whole.add(heads.containsKey(method) ? Path.of(self(method)).then(lock.fields()) : lock));
        if (!whole.equals(entry.put(method, whole))) {
            waiting.add(method);
        }
    }

    private static void rename(Path lock, Value value, Path.Root root, Set<Path> inside) {
        Path path = value.path();
        if (path != null && path.type() != null && path.type().fits(root.type())) {
            List<Field> rest = behind(lock, path);
            if (rest != null && (rest.isEmpty() || root.type().fits(rest.get(0).owner()))) {
                inside.add(Path.of(root).then(rest));
            }
        }
    }

    /** The fields of a lock behind a path, or null where it doesn't begin with that path. */
    static List<Field> behind(Path lock, Path front) {
        boolean begins = lock.root().name().equals(front.root().name()) && lock.fields().size() >= front.fields().size()
            && lock.fields().subList(0, front.fields().size()).equals(front.fields());
        return begins ? lock.fields().subList(front.fields().size(), lock.fields().size()) : null;
    }
}
