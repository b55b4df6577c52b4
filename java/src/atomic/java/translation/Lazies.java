package atomic.java.translation;

import atomic.java.ownership.Uses;
import atomic.java.program.Touch;
import com.sun.source.tree.AssignmentTree;
import com.sun.source.tree.BinaryTree;
import com.sun.source.tree.ExpressionTree;
import com.sun.source.tree.LambdaExpressionTree;
import com.sun.source.tree.MemberSelectTree;
import com.sun.source.tree.MethodInvocationTree;
import com.sun.source.tree.MethodTree;
import com.sun.source.tree.Tree;
import com.sun.source.tree.VariableTree;
import java.util.List;
import javax.lang.model.element.Element;
import javax.lang.model.element.ElementKind;
import javax.lang.model.element.VariableElement;

/**
 * Fields whose object is made where it is wanted first, and which others at most set to null, without giving the object away
 * that was there. Such a field is like a map with one entry: to look at it finds the object or none, to make the object adds
 * what isn't there, and to set it to null takes it out. What is done with an object that was taken out meanwhile is as if it
 * had been done before, unless who takes it out looks at it, as one that drains does. Where the object gets out, or another one
 * is put in its place, the field is none of these.
 */
record Lazies(Services services) {

    /** Notes of a look at such a field, or of a change, what it does. */
    void note(VariableElement field, boolean write, Tree at) {
        if (services.facts().of(field, "lazy", this::isLazy)) {
            boolean drops = write && isNull(services.attribution().parent(at));
            services.program().touches().put(services.attribution().name(at),
                new Touch(field, drops ? Touch.Kind.DROP : write ? Touch.Kind.MAKE : Touch.Kind.FIND, ""));
        }
    }

    private boolean isLazy(VariableElement field) {
        if (field.asType().getKind().isPrimitive() || !services.stable().isHidden(field)) {
            return false;
        }
        List<Uses.Assignment> all = services.uses().assignments(field);
        return all.stream().allMatch(each -> isNull(each.value()) ? each.tree() instanceof VariableTree || isDropped(field, each)
                : !(each.tree() instanceof VariableTree) && each.value() != null
                    && new Additions(services).isUnset(each.tree(), field))
            && all.stream().anyMatch(each -> !isNull(each.value()));
    }

    private static boolean isNull(Tree value) {
        Tree bare = value instanceof ExpressionTree written ? Uses.bare(written) : value;
        return bare != null && (bare.getKind() == Tree.Kind.NULL_LITERAL
            || bare instanceof AssignmentTree assignment && isNull(assignment.getExpression()));
    }

    /** Whether a method that sets a field to null gives nobody the object that it has. */
    private boolean isDropped(VariableElement field, Uses.Assignment assignment) {
        Tree method = method(assignment.tree());
        return services.uses().of(field).stream().filter(use -> method(use) == method).allMatch(use ->
            services.uses().isTarget(use) || isLookedAt(use, true));
    }

    /** Whether an object is compared with null or called here, or a local keeps it with which no more is done. */
    private boolean isLookedAt(Tree use, boolean first) {
        Tree parent = services.attribution().parent(use);
        boolean called = parent instanceof MemberSelectTree select && services.attribution().parent(select)
            instanceof MethodInvocationTree;
        Element kept = parent instanceof VariableTree || parent instanceof AssignmentTree
            ? services.attribution().element(parent instanceof AssignmentTree set ? set.getVariable() : parent) : null;
        return called || isCompared(parent) || first && kept != null && kept.getKind() == ElementKind.LOCAL_VARIABLE
            && services.uses().of(kept).stream().allMatch(each -> services.uses().isTarget(each) || isLookedAt(each, false));
    }

    private static boolean isCompared(Tree tree) {
        return tree instanceof BinaryTree compared && compared.getRightOperand().getKind() == Tree.Kind.NULL_LITERAL;
    }

    private Tree method(Tree tree) {
        Tree each = tree;
        while (each != null && !(each instanceof MethodTree) && !(each instanceof LambdaExpressionTree)) {
            each = services.attribution().parent(each);
        }
        return each;
    }
}
