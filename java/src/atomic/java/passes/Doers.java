package atomic.java.passes;

import atomic.java.skeleton.Method;
import atomic.java.skeleton.Part;
import java.util.ArrayDeque;
import java.util.ArrayList;
import java.util.Collection;
import java.util.Deque;
import java.util.HashMap;
import java.util.HashSet;
import java.util.List;
import java.util.Map;
import java.util.Set;
import java.util.function.Predicate;

/**
 * The methods that do something, in their own bodies or in those that their calls may run. Each method hands that on to its
 * callers once, so that a chain of calls takes no more time than as many methods without one.
 */
final class Doers {
    private final Predicate<Part> does;
    private final Map<Method, List<Method>> callers = new HashMap<>();
    private final Set<Method> doing = new HashSet<>();
    private final Set<Method> calling = new HashSet<>();
    private final Deque<Method> waiting = new ArrayDeque<>();

    /** The methods with a part that {@code does} it by itself, and all that come to run one of these. */
    Doers(Collection<Method> methods, Predicate<Part> does) {
        this.does = does;
        for (Method method : methods) {
            if (begins(method.body(), method)) {
                found(method);
            }
        }
        while (!waiting.isEmpty()) {
            Method target = waiting.remove();
            callers.getOrDefault(target, List.of()).forEach(this::found);
            target.overridden().forEach(this::called);
        }
    }

    /** Whether a call of a method may do it: by this method, or by one that overrides it. */
    boolean mayCall(Method target) {
        return calling.contains(target);
    }

    /** Whether a part or one within it does it by itself; the calls in it are noted. */
    private boolean begins(Part part, Method method) {
        boolean found = does.test(part);
        if (part instanceof Part.Call call) {
            callers.computeIfAbsent(call.target(), key -> new ArrayList<>()).add(method);
        }
        for (Part each : part.parts()) {
            found |= begins(each, method);
        }
        return found;
    }

    private void found(Method method) {
        if (doing.add(method)) {
            called(method);
        }
    }

    private void called(Method target) {
        if (calling.add(target)) {
            waiting.add(target);
        }
    }
}
