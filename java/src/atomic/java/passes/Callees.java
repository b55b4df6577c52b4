package atomic.java.passes;

import atomic.java.skeleton.Method;
import java.util.ArrayList;
import java.util.Collection;
import java.util.HashMap;
import java.util.List;
import java.util.Map;

/** The methods that a call may run: the one that it names, and those that override it. */
public final class Callees {
    private final Map<Method, List<Method>> below = new HashMap<>();
    private final Map<Method, List<Method>> known = new HashMap<>();

    public Callees(Collection<Method> methods) {
        for (Method method : methods) {
            for (Method above : method.overridden()) {
                below.computeIfAbsent(above, key -> new ArrayList<>()).add(method);
            }
        }
    }

    /** The method and all that override it. */
    public List<Method> of(Method method) {
        List<Method> all = known.get(method);
        if (all == null) {
            all = new ArrayList<>();
            collect(method, all);
            known.put(method, all);
        }
        return all;
    }

    /** Whether no method overrides this one. */
    boolean isAlone(Method method) {
        return !below.containsKey(method);
    }

    private void collect(Method method, List<Method> all) {
        all.add(method);
        below.getOrDefault(method, List.of()).forEach(each -> collect(each, all));
    }
}
