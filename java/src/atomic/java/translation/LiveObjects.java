package atomic.java.translation;

import atomic.java.program.JavaClass;
import atomic.java.program.JavaMethod;
import atomic.java.skeleton.Field;
import atomic.java.skeleton.Method;
import atomic.java.skeleton.Part;
import atomic.java.skeleton.Path;
import atomic.java.skeleton.Shape;
import atomic.java.skeleton.Value;
import com.sun.source.tree.MethodTree;
import com.sun.source.tree.ReturnTree;
import com.sun.source.tree.Tree;
import java.util.ArrayList;
import java.util.Collection;
import java.util.HashMap;
import java.util.HashSet;
import java.util.LinkedHashMap;
import java.util.List;
import java.util.Map;
import java.util.Set;
import java.util.function.Consumer;
import java.util.stream.Collectors;

/**
 * Objects of the sources that a method which is asked to be atomic gives its caller, and that others change later, two fields
 * in one region. Who has such an object can look at the two without that lock, and may find one changed and the other not.
 * So the method that gives it is refused. One that gives a new object, its own, or its argument gives nothing away.
 */
final class LiveObjects {
    private final Services services;
    private final Map<JavaClass, Map<JavaMethod, Tree>> given = new LinkedHashMap<>();

    LiveObjects(Services services) {
        this.services = services;
    }

    /** Notes which object a method gives back. */
    void give(Value object, ReturnTree at) {
        JavaClass type = object == null || object.type() == null || object instanceof Value.Fresh || isOfCaller(object) ? null
            : services.program().find(services.attribution().type(at.getExpression()));
        JavaMethod method = services.program().around(at) instanceof MethodTree around
            ? services.program().method(services.attribution().element(around)) : null;
        if (type != null && !type.isInterface() && method != null && services.methods().promises(method)) {
            given.computeIfAbsent(type, key -> new LinkedHashMap<>()).putIfAbsent(method, at.getExpression());
        }
    }

    /** Notes that a method lets out an object of this class, which is found within what a field holds. */
    void give(JavaClass type, JavaMethod method, Tree at) {
        given.computeIfAbsent(type, key -> new LinkedHashMap<>()).putIfAbsent(method, at);
    }

    /** Whether it is the object itself or an argument, which the caller has already. */
    private static boolean isOfCaller(Value object) {
        return object.path() != null && object.path().fields().isEmpty() && object.path().root().kind() != Path.Kind.LOCAL;
    }

    /** Where all methods are written: only what others change in one region, two fields of it, may be seen in halves. */
    void finish(Collection<Method> all) {
        Map<Shape, List<Method>> homes = all.stream().collect(Collectors.groupingBy(Method::owner));
        Map<Shape, List<Set<Field>>> together = given.isEmpty() ? Map.of() : together(all);
        given.forEach((type, givers) -> {
            Set<Field> shown = new HashSet<>();
            homes.getOrDefault(type.shape(), List.of()).stream().filter(each -> services.methods().origin(each)
                instanceof JavaMethod java && java.isCallable() && !java.isConstructor())
                .forEach(each -> shown(each.body(), type.shape(), shown));
            if (together.getOrDefault(type.shape(), List.of()).stream()
                    .anyMatch(each -> each.stream().filter(shown::contains).count() > 1)) {
                refuse(type, givers, all);
            }
        });
    }

    private void refuse(JavaClass type, Map<JavaMethod, Tree> givers, Collection<Method> all) {
        Method way = services.blank("whoever is given this " + type.symbol().getSimpleName(), Method.Doubt.ANY);
        services.fill(way, true);
        givers.values().forEach(each -> services.hint(each, "live object: the caller may look at two fields of this "
            + type.symbol().getSimpleName() + " one by one, while others change both in one region"));
        all.stream().filter(each -> givers.containsKey(services.methods().origin(each))).forEach(each ->
            each.body(Part.sequence(List.of(each.body(), new Part.Call(new Value.Opaque(services.program().helpers()), way,
                List.of(), services.attribution().name(givers.get(services.methods().origin(each))))))));
    }

    /** The plain fields of an object that its own methods look at while they hold no lock. */
    private static void shown(Part part, Shape owner, Set<Field> found) {
        if (part instanceof Part.Access access && access.field().owner() == owner && access.field().guard() == null) {
            found.add(access.field());
        } else if (!(part instanceof Part.Region)) {
            part.parts().forEach(each -> shown(each, owner, found));
        }
    }

    /** By class, those of its fields that a region changes in a method of another class, where they are two or more. */
    private static Map<Shape, List<Set<Field>>> together(Collection<Method> all) {
        Map<Shape, List<Set<Field>>> together = new HashMap<>();
        all.forEach(each -> regions(each.body(), region -> {
            Map<Shape, Set<Field>> changed = new HashMap<>();
            changes(region, changed);
            changed.forEach((owner, fields) -> {
                if (owner != each.owner() && fields.size() > 1) {
                    together.computeIfAbsent(owner, key -> new ArrayList<>()).add(fields);
                }
            });
        }));
        return together;
    }

    /** The outermost regions: whatever one within them changes, they change too. */
    private static void regions(Part part, Consumer<Part> found) {
        if (part instanceof Part.Region) {
            found.accept(part);
        } else {
            part.parts().forEach(each -> regions(each, found));
        }
    }

    private static void changes(Part part, Map<Shape, Set<Field>> changed) {
        if (part instanceof Part.Access access && access.write()) {
            changed.computeIfAbsent(access.field().owner(), key -> new HashSet<>()).add(access.field());
        }
        part.parts().forEach(each -> changes(each, changed));
    }
}
