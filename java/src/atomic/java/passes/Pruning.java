package atomic.java.passes;

import atomic.java.skeleton.Method;
import atomic.java.skeleton.Part;
import atomic.java.skeleton.Shape;
import atomic.java.skeleton.Value;
import java.util.ArrayList;
import java.util.Collection;
import java.util.HashSet;
import java.util.List;
import java.util.Set;

/** Takes out what has no step: calls of methods without any, methods that nobody calls, locals that nothing names. */
public final class Pruning {
    private final List<Shape> shapes;
    private final Collection<Method> kept;
    private final List<Method> methods = new ArrayList<>();
    private Doers stepping;

    /** The methods {@code kept} stay where they have steps, whether they are called or not. */
    public Pruning(List<Shape> shapes, Collection<Method> kept) {
        this.shapes = shapes;
        this.kept = kept;
        shapes.forEach(shape -> methods.addAll(shape.methods()));
    }

    /** Takes them out. */
    public void run() {
        stepping = new Doers(methods, Pruning::steps);
        methods.forEach(method -> method.body(withoutIdle(method.body())));
        Set<Method> reached = reached();
        shapes.forEach(shape -> shape.methods().removeIf(method -> !reached.contains(method)));
        reached.forEach(method -> {
            Set<String> named = new HashSet<>();
            names(method.body(), named);
            method.body(withoutUnnamed(method.body(), named));
            method.loose().removeIf(each -> !named.contains(each.name()));
        });
        Set<Shape> mentioned = mentioned(reached);
        shapes.removeIf(shape -> shape.methods().isEmpty() && !mentioned.contains(shape));
    }

    /** Whether a part is a step by itself, whatever it calls. */
    private static boolean steps(Part part) {
        return part instanceof Part.Access || part instanceof Part.Region || part instanceof Part.Wait
            || part instanceof Part.Call call && !call.target().required().isEmpty();
    }

    private Part withoutIdle(Part part) {
        if (part instanceof Part.Call call) {
            return steps(call) || stepping.mayCall(call.target()) ? call : Part.NOTHING;
        }
        return part.map(this::withoutIdle);
    }

    /** The methods that are judged and have steps, and all that these call or override. */
    private Set<Method> reached() {
        Set<Method> reached = new HashSet<>();
        List<Method> next = new ArrayList<>();
        Callees callees = new Callees(methods);
        kept.stream().filter(method -> stepping.mayCall(method) || !method.required().isEmpty()).forEach(next::add);
        while (!next.isEmpty()) {
            Method method = next.remove(next.size() - 1);
            if (reached.add(method)) {
                calls(method.body(), next);
                next.addAll(method.overridden());
                next.addAll(callees.of(method));
            }
        }
        return reached;
    }

    private static void calls(Part part, List<Method> found) {
        if (part instanceof Part.Call call) {
            found.add(call.target());
        }
        part.parts().forEach(each -> calls(each, found));
    }

    private static void names(Part part, Set<String> named) {
        if (part instanceof Part.Access access) {
            names(access.receiver(), named);
        } else if (part instanceof Part.Call call) {
            names(call.receiver(), named);
            call.arguments().forEach(each -> names(each, named));
        } else if (part instanceof Part.Region region && region.lock() != null) {
            named.add(region.lock().root().name());
        } else if (part instanceof Part.Local local && local.value() != null) {
            named.add(local.value().root().name());
        }
        part.parts().forEach(each -> names(each, named));
    }

    private static void names(Value value, Set<String> named) {
        if (value instanceof Value.Named one) {
            named.add(one.path().root().name());
        } else if (value instanceof Value.Loose loose) {
            named.add(loose.variable().name());
        }
    }

    private static Part withoutUnnamed(Part part, Set<String> named) {
        if (part instanceof Part.Local local) {
            return named.contains(local.variable().name()) ? local : Part.NOTHING;
        }
        return part.map(each -> withoutUnnamed(each, named));
    }

    /** The classes that what is left names. */
    private Set<Shape> mentioned(Set<Method> reached) {
        Set<Shape> found = new HashSet<>();
        for (Method method : reached) {
            method.parameters().forEach(each -> found.add(each.type()));
            method.loose().forEach(each -> found.add(each.type()));
            mention(method.body(), found);
        }
        shapes.forEach(shape -> {
            found.add(shape.parent());
            shape.fields().forEach(field -> found.add(field.type()));
        });
        return found;
    }

    private static void mention(Part part, Set<Shape> found) {
        if (part instanceof Part.Local local) {
            found.add(local.variable().type());
        } else if (part instanceof Part.Access access) {
            found.add(access.receiver().type());
            found.add(access.field().owner());
        } else if (part instanceof Part.Call call) {
            found.add(call.target().owner());
        } else if (part instanceof Part.Region region && region.lock() != null) {
            found.add(region.lock().type());
        }
        part.parts().forEach(each -> mention(each, found));
    }
}
