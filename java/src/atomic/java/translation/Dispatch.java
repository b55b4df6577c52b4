package atomic.java.translation;

import atomic.java.program.JavaClass;
import atomic.java.program.JavaMethod;
import atomic.java.skeleton.Method;
import atomic.java.skeleton.Part;
import atomic.java.skeleton.Path;
import atomic.java.skeleton.Value;
import java.util.ArrayList;
import java.util.List;

/**
 * The bodies of methods that have none in Java. A method of an interface is whatever the classes at hand have in its place;
 * one that none of them has may do anything.
 */
final class Dispatch {
    private final Services services;

    Dispatch(Services services) {
        this.services = services;
    }

    /** The body of an abstract or native method. */
    Part body(JavaMethod method, JavaClass self, Body body) {
        if (!method.isAbstract()) {
            return services.doubt(Method.Doubt.ANY, shown(method), true, body, method.tree(),
                "unknown call: a native method may do anything");
        } else if (!self.isInterface()) {
            return hasImplementation(method, self) ? Part.NOTHING : unknown(method);
        }
        List<Part> calls = calls(method, self, body);
        return calls.isEmpty() ? unknown(method) : either(calls);
    }

    /** A default method's body, or what the classes at hand have in its place. */
    Part join(Part own, JavaMethod method, JavaClass self, Body body) {
        List<Part> all = new ArrayList<>(calls(method, self, body));
        all.add(own);
        return either(all);
    }

    private Part unknown(JavaMethod method) {
        return services.brought(Method.Doubt.ANY, shown(method), method.owner().symbol().asType(), method.tree(),
            "unknown call: no class at hand has " + shown(method) + ", so it may do anything");
    }

    private String shown(JavaMethod method) {
        return services.program().names().shown(method.owner().shape().name()) + "." + method.symbol().getSimpleName();
    }

    private boolean hasImplementation(JavaMethod method, JavaClass self) {
        return services.families().below(self).stream().anyMatch(each -> each != self
            && services.families().implementation(each, method) != null);
    }

    /** A call of each method that may run: of the classes furthest up, since those below override theirs. */
    private List<Part> calls(JavaMethod method, JavaClass self, Body body) {
        List<Part> calls = new ArrayList<>();
        for (JavaClass each : services.families().below(self)) {
            JavaClass above = services.families().above(each);
            boolean top = !each.isInterface() && (above == null || !services.families().isBelow(above, self));
            if (top) {
                collect(method, each, body, calls);
            }
        }
        services.functions().implementations(self).forEach(function -> calls.add(new Part.Call(
            new Value.Opaque(function.owner()), function, List.of(new Value.Named(body.statics())), function.place())));
        return calls;
    }

    private void collect(JavaMethod method, JavaClass each, Body body, List<Part> calls) {
        JavaMethod found = services.families().implementation(each, method);
        if (found == null) {
            services.families().below(each).stream().filter(below -> services.families().above(below) == each)
                .forEach(below -> collect(method, below, body, calls));
        } else if (found != method) {
            calls.add(call(found, each, body));
        }
    }

    private Part call(JavaMethod found, JavaClass each, Body body) {
        boolean inherited = found.owner().isInterface();
        Method target = services.methods().of(found, inherited ? each : found.owner(), false);
        List<Value> arguments = new ArrayList<>();
        body.target().parameters().forEach(root -> arguments.add(new Value.Named(Path.of(root))));
        return new Part.Call(new Value.Opaque(inherited ? each.shape() : found.owner().shape()), target, arguments,
            body.target().place());
    }

    /** One of several parts, as a balanced tree of choices. */
    static Part either(List<Part> parts) {
        if (parts.size() <= 1) {
            return parts.isEmpty() ? Part.NOTHING : parts.get(0);
        }
        int half = parts.size() / 2;
        return new Part.Either(either(parts.subList(0, half)), either(parts.subList(half, parts.size())));
    }
}
