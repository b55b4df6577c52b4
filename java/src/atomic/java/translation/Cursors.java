package atomic.java.translation;

import atomic.java.program.Families;
import atomic.java.program.JavaClass;
import atomic.java.skeleton.Field;
import com.sun.source.tree.ClassTree;
import com.sun.source.tree.ExpressionTree;
import com.sun.source.tree.MethodTree;
import com.sun.source.tree.Tree;
import java.util.HashMap;
import java.util.List;
import java.util.Map;
import javax.lang.model.element.Modifier;
import javax.lang.model.element.TypeElement;
import javax.lang.model.element.VariableElement;

/**
 * The own fields of an iterator, such as where it stands, and of a builder. By the habit of Java's libraries one thread walks
 * with an iterator, and whoever hands it to another one hands it over for good: {@code Spliterator} says so, and no iterator of
 * {@code java.util} is safe otherwise. The same is so of a builder. So a look at such a field is as good as one at a local.
 * Nothing keeps a caller from doing otherwise: so each of them counts as a step, and only where what is certain counts it
 * doesn't. A field that is volatile, that has a guard, that code outside touches, or that is touched with the iterator's own
 * monitor held, says that several threads come.
 */
final class Cursors {
    private static final List<String> WALKS = List.of("java.util.Iterator", "java.util.Enumeration", "java.util.Spliterator");

    private final Services services;
    private final Map<TypeElement, Boolean> known = new HashMap<>();

    Cursors(Services services) {
        this.services = services;
    }

    /** Whether to touch a field, or what it holds, is no step, where only what is certain counts; where it is one, a hint. */
    boolean leavesOut(VariableElement field, Field touched, Tree at) {
        boolean own = field != null && services.facts().of(field, "of one thread", this::isOwn);
        if (own) {
            touched.leaveToOne();
            services.hint(at, "own field: one thread alone has an iterator or a builder, as a rule, so that nobody else touches "
                + field.getSimpleName() + "; it counts as a step all the same");
        }
        return own && services.program().sure();
    }

    private boolean isOwn(VariableElement field) {
        return field.getKind().isField() && !Families.isStatic(field) && !field.getModifiers().contains(Modifier.VOLATILE)
            && field.getEnclosingElement() instanceof TypeElement owner && isOfOne(owner)
            && !services.fields().guards().isNamed(field) && !services.uses().isReflected(field)
            && services.uses().of(field).stream().allMatch(use -> isWithin(use, owner));
    }

    /** Whether one thread alone has an object of a class: a builder by its name, and those of all its heirs, or an iterator. */
    private boolean isOfOne(TypeElement owner) {
        return known.computeIfAbsent(owner, key -> builds(key) && services.families().below(services.program().find(key)).stream()
            .allMatch(each -> builds(each.symbol())) || walks(key));
    }

    private static boolean builds(TypeElement owner) {
        return owner.getSimpleName().toString().endsWith("Builder");
    }

    /** Whether a class is an iterator, or what iterators alone are made of: an abstract one of which each heir is one. */
    boolean walks(TypeElement owner) {
        if (WALKS.stream().map(services.attribution().elements()::getTypeElement).anyMatch(each -> isBelow(owner, each))) {
            return true;
        }
        JavaClass known = owner.getModifiers().contains(Modifier.ABSTRACT) ? services.program().find(owner) : null;
        List<TypeElement> heirs = known == null ? List.of() : services.families().below(known).stream().map(JavaClass::symbol)
            .filter(each -> services.attribution().types().asElement(each.getSuperclass()) == owner).toList();
        return !heirs.isEmpty() && heirs.stream().allMatch(this::walks);
    }

    private boolean isBelow(TypeElement owner, TypeElement above) {
        var types = services.attribution().types();
        return above != null && types.isSubtype(types.erasure(owner.asType()), types.erasure(above.asType()));
    }

    /** Whether a use of a field is the iterator's own, of this object, and holds no monitor of it. */
    private boolean isWithin(Tree use, TypeElement owner) {
        Tree each = use;
        while (each != null && !(each instanceof ClassTree)) {
            each = services.attribution().parent(each);
        }
        return each != null && services.attribution().element(each) == owner && use instanceof ExpressionTree name
            && new Tests(services).isOwn(name) && !(services.stable().region(use) instanceof MethodTree);
    }
}
