package atomic.java.passes;

import atomic.java.skeleton.Method;
import atomic.java.skeleton.Part;
import java.util.ArrayDeque;
import java.util.Collection;
import java.util.Deque;
import java.util.HashMap;
import java.util.LinkedHashSet;
import java.util.Map;
import java.util.Set;

/**
 * Methods that are called on new objects alone, such as what a constructor or {@code readObject} calls to fill its object:
 * each such call runs the method for an object that nobody else knows yet, and the one for objects that others know is never
 * run. So its accesses take no lock from a field.
 */
public final class OnlyOfNew {
    private final Map<Method, Method> forNew;
    private final Map<Method, Integer> calls = new HashMap<>();
    private final Callees callees;
    private final Deque<Method> waiting = new ArrayDeque<>();

    /** All methods of a skeleton; {@code forNew} has, of those that are called on new objects too, the method for these. */
    public OnlyOfNew(Collection<Method> all, Map<Method, Method> forNew) {
        this.forNew = forNew;
        callees = new Callees(all);
        all.forEach(each -> count(each, each.body(), 1));
    }

    /** The methods that nobody calls, where those for new objects are called. */
    public Set<Method> find() {
        Set<Method> found = new LinkedHashSet<>();
        waiting.addAll(forNew.keySet());
        while (!waiting.isEmpty()) {
            Method each = waiting.remove();
            if (isUnused(each) && found.add(each)) {
                count(each, each.body(), -1);
            }
        }
        return found;
    }

    private boolean isUnused(Method method) {
        return calls.getOrDefault(method, 0) == 0 && calls.getOrDefault(forNew.get(method), 0) > 0 && method.closed()
            && !method.atomic() && method.overridden().isEmpty() && callees.of(method).size() == 1;
    }

    /** Counts the calls in a method, but for those of itself. One that is called no more may be unused now. */
    private void count(Method method, Part part, int by) {
        if (part instanceof Part.Call call && call.target() != method && calls.merge(call.target(), by, Integer::sum) == 0
                && forNew.containsKey(call.target())) {
            waiting.add(call.target());
        }
        part.parts().forEach(each -> count(method, each, by));
    }
}
