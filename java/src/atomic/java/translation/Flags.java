package atomic.java.translation;

import atomic.java.ownership.Uses;
import atomic.java.program.Touch;
import com.sun.source.tree.LiteralTree;
import com.sun.source.tree.Tree;
import com.sun.source.tree.VariableTree;
import java.util.List;
import javax.lang.model.element.Modifier;
import javax.lang.model.element.VariableElement;
import javax.lang.model.type.TypeKind;

/**
 * Flags that never go back: volatile ones that are only ever set to the same constant, such as {@code closed = true}. Where
 * one was seen to be set, a second look tells the same, and where a second look finds it still unset, so was the first.
 */
record Flags(Services services) {

    /** Notes of a change that it sets such a flag. */
    void note(VariableElement field, Tree at) {
        if (never(field)) {
            services.program().touches().put(services.attribution().name(at), new Touch(field, Touch.Kind.SET, ""));
        }
    }

    /** Whether a field is such a flag. */
    boolean never(VariableElement field) {
        return services.facts().of(field, "flag", this::find);
    }

    private boolean find(VariableElement field) {
        boolean flag = field.getKind().isField() && field.asType().getKind() == TypeKind.BOOLEAN
            && field.getModifiers().contains(Modifier.PRIVATE) && field.getModifiers().contains(Modifier.VOLATILE)
            && !services.uses().isReflected(field);
        if (!flag) {
            return false;
        }
        List<Uses.Assignment> all = services.uses().assignments(field);
        Object begins = all.stream().filter(each -> each.tree() instanceof VariableTree).map(Flags::constant).findFirst()
            .orElse(false);
        return begins instanceof Boolean first && all.stream().filter(each -> !(each.tree() instanceof VariableTree))
            .allMatch(each -> Boolean.valueOf(!first).equals(constant(each)));
    }

    private static Object constant(Uses.Assignment assignment) {
        return assignment.value() != null && Uses.bare(assignment.value()) instanceof LiteralTree literal
            ? literal.getValue() : "computed";
    }
}
