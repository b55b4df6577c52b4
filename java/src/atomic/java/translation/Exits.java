package atomic.java.translation;

import atomic.java.ownership.Escape;
import atomic.java.places.Notes;
import atomic.java.program.JavaClass;
import atomic.java.program.JavaMethod;
import atomic.java.skeleton.Field;
import atomic.java.skeleton.Method;
import atomic.java.skeleton.Part;
import atomic.java.skeleton.Value;
import com.sun.source.tree.ExpressionTree;
import com.sun.source.tree.LambdaExpressionTree;
import com.sun.source.tree.MethodTree;
import com.sun.source.tree.NewClassTree;
import com.sun.source.tree.ReturnTree;
import com.sun.source.tree.Tree;
import java.util.Collection;
import java.util.HashMap;
import java.util.HashSet;
import java.util.LinkedHashMap;
import java.util.LinkedHashSet;
import java.util.List;
import java.util.Map;
import java.util.Set;
import javax.lang.model.element.Element;
import javax.lang.model.element.ExecutableElement;
import javax.lang.model.element.VariableElement;

/**
 * Where a method that is asked to be atomic gives its caller what a field holds, or what shows it, such as a view or an
 * iterator. Who has that looks at it later, step by step and without a lock: so this method is refused. All others are judged
 * as if nobody touched the object in that way, which is told. An object that nobody changes may be given to anybody. An iterator
 * of the sources that looks without a lock at what others change is refused where it is made for the caller, too.
 */
final class Exits {
    private final Services services;
    private final Map<VariableElement, Boolean> known = new HashMap<>();
    private final Map<VariableElement, Method> ways = new LinkedHashMap<>();
    private final Map<VariableElement, Method> left = new LinkedHashMap<>();
    private final Map<VariableElement, List<Tree>> places = new LinkedHashMap<>();
    private final Map<JavaClass, Method> walkers = new LinkedHashMap<>();

    Exits(Services services) {
        this.services = services;
    }

    /** Whether what a field holds gets out in such places alone, and somewhere. */
    boolean areTold(VariableElement field) {
        return known.computeIfAbsent(field, key -> {
            List<Tree> all = services.program().options().strict() ? List.of() : services.ownership().exits(key);
            boolean told = !all.isEmpty() && all.stream().allMatch(this::isRefused);
            if (told) {
                places.put(key, all);
            }
            return told;
        });
    }

    /** Whether an object only goes to the caller of a method that is refused for that, and that nobody here calls. */
    private boolean isRefused(Tree use) {
        Tree around = services.program().around(use);
        while (around instanceof LambdaExpressionTree lambda && lambda.getBody() instanceof ExpressionTree) {
            around = services.program().around(lambda);
        }
        JavaMethod method = around instanceof MethodTree
            ? services.program().method(services.attribution().element(around)) : null;
        return method != null && services.ownership().escape().returns(use) && services.methods().promises(method)
            && !services.ownership().isCalled(method)
            && services.families().overridden(method).stream().noneMatch(services.ownership()::isCalled);
    }

    /** Writes what becomes of the object of a field, where it gets out by this use of the field. */
    void write(VariableElement field, Tree use, Body body) {
        if (areTold(field) && services.ownership().escape().from(use) != Escape.NEVER) {
            Method way = ways.computeIfAbsent(field, key -> services.blank("whoever is given what " + key.getSimpleName()
                + " holds", Method.Doubt.ANY));
            body.emit(new Part.Call(new Value.Opaque(services.program().helpers()), way, List.of(),
                services.attribution().name(use)));
        }
    }

    /** The same of a field whose object gets out in other ways too, where a method that is asked gives it back within another. */
    void leave(VariableElement field, Tree use, Body body) {
        if (!areTold(field) && services.ownership().exits(field).contains(use) && isGivenBack(use)
                && isAsked(services.program().around(use))) {
            Method way = left.computeIfAbsent(field, key -> services.blank("whoever is given what " + key.getSimpleName()
                + " holds", Method.Doubt.ANY));
            body.emit(new Part.Call(new Value.Opaque(services.program().helpers()), way, List.of(),
                services.attribution().name(use)));
        }
    }

    private boolean isGivenBack(Tree use) {
        Tree each = use;
        while (each instanceof ExpressionTree) {
            each = services.attribution().parent(each);
        }
        return each instanceof ReturnTree;
    }

    /** Writes what becomes of an iterator of the sources that a method makes for its caller. */
    void give(NewClassTree made, Body body) {
        Element type = made.getClassBody() == null ? services.attribution().element(made) : services.attribution()
            .element(made.getClassBody());
        JavaClass walker = services.program().find(type instanceof ExecutableElement maker ? maker.getEnclosingElement() : type);
        if (walker != null && walker.hasOuterObject() && services.cursors().walks(walker.symbol())
                && services.attribution().parent(made) instanceof ReturnTree && isAsked(services.program().around(made))) {
            Method way = walkers.computeIfAbsent(walker, key -> services.blank("whoever is given this iterator",
                Method.Doubt.ANY));
            body.emit(new Part.Call(new Value.Opaque(services.program().helpers()), way, List.of(),
                services.attribution().name(made)));
        }
    }

    private boolean isAsked(Tree around) {
        return around instanceof MethodTree && services.methods().promises(services.program().method(
            services.attribution().element(around)));
    }

    /** Whether an iterator looks at what others change, while it holds no lock. */
    private boolean looks(JavaClass walker, Collection<Method> all, Map<Field, Set<Method>> changing) {
        Set<Field> looked = new HashSet<>();
        all.stream().filter(each -> each.owner() == walker.shape() && services.methods().origin(each) instanceof JavaMethod java
            && !java.isConstructor()).forEach(each -> looks(each.body(), walker, looked));
        return looked.stream().anyMatch(field -> changing.getOrDefault(field, Set.of()).stream()
            .anyMatch(each -> each.owner() != walker.shape()));
    }

    private static void looks(Part part, JavaClass walker, Set<Field> looked) {
        if (part instanceof Part.Access access && access.field().owner() != walker.shape() && !access.field().ordered()) {
            looked.add(access.field());
        } else if (!(part instanceof Part.Region)) {
            part.parts().forEach(each -> looks(each, walker, looked));
        }
    }

    /** Where all methods are written: what nobody changes doesn't matter. */
    void finish(Collection<Method> all) {
        left.forEach((field, way) -> {
            if (services.isChanged(field)) {
                services.fill(way, true);
            }
        });
        if (ways.isEmpty() && walkers.isEmpty()) {
            return;
        }
        Map<Field, Set<Method>> touching = new HashMap<>();
        Map<Field, Set<Method>> changing = new HashMap<>();
        all.forEach(each -> touches(each.body(), each, touching, changing));
        ways.forEach((field, way) -> {
            Field contents = services.fields().contents(field).field();
            if (changing.containsKey(contents)) {
                services.fill(way, true);
                places.get(field).forEach(each -> tell(field, each, touching.get(contents)));
            }
        });
        walkers.forEach((walker, way) -> {
            if (looks(walker, all, changing)) {
                services.fill(way, true);
            }
        });
    }

    private void tell(VariableElement field, Tree exit, Set<Method> touching) {
        touching.forEach(each -> services.program().notes().tell(Notes.Kind.ASSUMED, services.methods().origin(each),
            services.attribution().name(exit), "nobody touches what " + field.getSimpleName()
                + " holds by way of what gets out here"));
        services.hint(exit, "object of others: what " + field.getSimpleName() + " holds gets out here, so that others may touch"
            + " it without any lock");
    }

    private static void touches(Part part, Method method, Map<Field, Set<Method>> touching, Map<Field, Set<Method>> changing) {
        if (part instanceof Part.Access access) {
            touching.computeIfAbsent(access.field(), key -> new LinkedHashSet<>()).add(method);
            if (access.write()) {
                changing.computeIfAbsent(access.field(), key -> new LinkedHashSet<>()).add(method);
            }
        }
        part.parts().forEach(each -> touches(each, method, touching, changing));
    }
}
