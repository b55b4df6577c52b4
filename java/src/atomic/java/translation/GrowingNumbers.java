package atomic.java.translation;

import atomic.java.ownership.Uses;
import atomic.java.program.JavaMethod;
import com.sun.source.tree.BinaryTree;
import com.sun.source.tree.CompoundAssignmentTree;
import com.sun.source.tree.ExpressionTree;
import com.sun.source.tree.LiteralTree;
import com.sun.source.tree.MethodInvocationTree;
import com.sun.source.tree.ReturnTree;
import com.sun.source.tree.Tree;
import com.sun.source.tree.UnaryTree;
import com.sun.source.tree.VariableTree;
import com.sun.source.util.TreeScanner;
import java.util.ArrayList;
import java.util.List;
import javax.lang.model.element.VariableElement;

/**
 * Two numbers that only grow, of which it is asked whether they are equal: {@code taken() == put()}. Where the one never passes
 * the other, equal ones were equal at the first look, and others differed at some moment. That it doesn't isn't known: so the
 * two looks count as steps, and only where what is certain counts the first one doesn't.
 */
record GrowingNumbers(Services services) {

    /** Whether the first look of a comparison is no step; where it is one, a hint. */
    boolean leavesOut(BinaryTree tree) {
        boolean asks = tree.getKind() == Tree.Kind.EQUAL_TO || tree.getKind() == Tree.Kind.NOT_EQUAL_TO;
        VariableElement one = asks ? number(tree.getLeftOperand(), true) : null;
        VariableElement other = one == null ? null : number(tree.getRightOperand(), true);
        if (other == null || one == other) {
            return false;
        }
        services.hint(tree, "growing numbers: " + one.getSimpleName() + " and " + other.getSimpleName() + " only grow, so that"
            + " two looks may tell what one would; each counts as a step all the same");
        return services.program().sure();
    }

    /** The field whose number an expression tells, where it only grows; a call is looked into once. */
    private VariableElement number(ExpressionTree tree, boolean calls) {
        ExpressionTree bare = Uses.bare(tree);
        if (bare instanceof BinaryTree sum && Uses.bare(sum.getRightOperand()) instanceof LiteralTree) {
            return number(sum.getLeftOperand(), calls);
        } else if (bare instanceof MethodInvocationTree call) {
            JavaMethod method = calls && call.getArguments().isEmpty()
                ? services.program().method(services.attribution().element(call)) : null;
            List<ExpressionTree> given = method == null || method.tree().getBody() == null ? List.of() : given(method);
            return given.size() == 1 ? number(given.get(0), false) : null;
        }
        return services.attribution().element(bare) instanceof VariableElement field && field.getKind().isField()
            && field.asType().getKind().isPrimitive() && services.facts().of(field, "only grows", this::grows) ? field : null;
    }

    private static List<ExpressionTree> given(JavaMethod method) {
        List<ExpressionTree> all = new ArrayList<>();
        new TreeScanner<Void, Void>() {
            @Override
            public Void visitReturn(ReturnTree tree, Void nothing) {
                all.add(tree.getExpression());
                return null;
            }
        }.scan(method.tree().getBody(), null);
        return all;
    }

    private boolean grows(VariableElement field) {
        List<Uses.Assignment> all = services.uses().assignments(field);
        return all.stream().anyMatch(each -> !(each.tree() instanceof VariableTree)) && all.stream().map(Uses.Assignment::tree)
            .allMatch(each -> each instanceof VariableTree || each instanceof UnaryTree && each.getKind().name().endsWith("INCREMENT")
                || each instanceof CompoundAssignmentTree && each.getKind() == Tree.Kind.PLUS_ASSIGNMENT);
    }
}
