package atomic.java.translation;

import atomic.java.ownership.InnerThings;
import atomic.java.places.Notes;
import atomic.java.program.JavaClass;
import atomic.java.program.JavaMethod;
import atomic.java.skeleton.Field;
import atomic.java.skeleton.Method;
import atomic.java.skeleton.Part;
import atomic.java.skeleton.Value;
import com.sun.source.tree.ExpressionTree;
import com.sun.source.tree.Tree;
import java.util.ArrayList;
import java.util.Collection;
import java.util.HashMap;
import java.util.HashSet;
import java.util.LinkedHashSet;
import java.util.List;
import java.util.Map;
import java.util.Set;
import javax.lang.model.element.Element;
import javax.lang.model.element.ElementKind;
import javax.lang.model.element.VariableElement;
import javax.lang.model.type.TypeMirror;

/**
 * Collections and arrays within a collection of a field, such as the lists in a map of lists. A method that lets such a one out, or
 * what shows or holds it, is refused where some code here changes it: who has it looks at it later, step by step and without
 * a lock. Of an object of the sources that gets out so {@link LiveObjects} is told.
 */
final class LiveContents {
    private final Services services;
    /** The types of what is changed in each file. */
    private final Map<String, Set<TypeMirror>> changed = new HashMap<>();

    private final Map<Field, Set<Method>> touching = new HashMap<>();
    private final Map<Object, List<Method>> bodies = new HashMap<>();

    LiveContents(Services services) {
        this.services = services;
    }

    /** Notes that an object of an expression is changed, of which it isn't known whose it is. */
    void changes(ExpressionTree object) {
        TypeMirror type = services.attribution().type(object);
        if (type != null) {
            changed.computeIfAbsent(file(object), key -> new HashSet<>()).add(services.attribution().types().erasure(type));
        }
    }

    /** Where all methods are written: what nobody changes may be given to anybody. */
    void finish(Collection<Method> all) {
        for (InnerThings.Ways each : new InnerThings(services.program(), services.ownership()).find(services.methods()::promises)) {
            JavaClass known = services.program().find(each.type());
            each.outs().forEach((at, method) -> {
                if (known != null && method != null) {
                    services.liveObjects().give(known, method, at);
                } else if (known == null && (each.changed() || isChanged(at, each.type()))) {
                    refuse(at, method, all);
                    assume(each.field(), at, all);
                }
            });
        }
        parts(all);
    }

    /** What an object stands for as a whole is changed by nobody: who is given a part of it as it is may do so. */
    private void parts(Collection<Method> all) {
        services.program().classes().forEach(each -> {
            for (Element member : each.symbol().getEnclosedElements()) {
                if (member instanceof VariableElement field && field.getKind() == ElementKind.FIELD
                        && services.immutables().isLent(field)) {
                    services.ownership().unchangedParts().outs(field).forEach(at ->
                        refuse(at, services.ownership().unchangedParts().home(at), all));
                }
            }
        });
    }

    /** All others that touch what the field holds are judged as if nobody touched it in that way. */
    private void assume(VariableElement field, Tree at, Collection<Method> all) {
        if (services.fields().owns(field)) {
            Field contents = services.fields().contents(field).field();
            touching(all).getOrDefault(contents, Set.of()).forEach(each ->
                services.program().notes().tell(Notes.Kind.ASSUMED, services.methods().origin(each), services.attribution().name(at),
                    "nobody touches what is within " + field.getSimpleName() + " by way of what gets out here"));
        }
    }

    /** By each field the methods that touch it. */
    private Map<Field, Set<Method>> touching(Collection<Method> all) {
        if (touching.isEmpty()) {
            all.forEach(each -> touches(each.body(), each));
        }
        return touching;
    }

    private void touches(Part part, Method method) {
        if (part instanceof Part.Access access) {
            touching.computeIfAbsent(access.field(), key -> new LinkedHashSet<>()).add(method);
        }
        part.parts().forEach(each -> touches(each, method));
    }

    private void refuse(Tree at, JavaMethod method, Collection<Method> all) {
        Method way = services.blank("whoever is given what is found here", Method.Doubt.ANY);
        services.fill(way, true);
        services.hint(at, "object of others: what is found here gets out, so that others may touch it without any lock");
        if (bodies.isEmpty()) {
            all.forEach(each -> bodies.computeIfAbsent(services.methods().origin(each), key -> new ArrayList<>()).add(each));
        }
        bodies.getOrDefault(method, List.of()).forEach(each ->
            each.body(Part.sequence(List.of(each.body(), new Part.Call(new Value.Opaque(services.program().helpers()), way,
                List.of(), services.attribution().name(at))))));
    }

    private boolean isChanged(Tree at, TypeMirror type) {
        return changed.getOrDefault(file(at), Set.of()).stream().anyMatch(each -> mayBe(each, type));
    }

    private String file(Tree tree) {
        return services.attribution().place(tree).file();
    }

    private boolean mayBe(TypeMirror one, TypeMirror other) {
        TypeMirror erased = services.attribution().types().erasure(other);
        return services.attribution().types().isSubtype(one, erased) || services.attribution().types().isSubtype(erased, one);
    }
}
