package atomic.java.translation;

import atomic.java.ownership.Uses;
import atomic.java.skeleton.Part;
import com.sun.source.tree.AssignmentTree;
import com.sun.source.tree.BinaryTree;
import com.sun.source.tree.ExpressionStatementTree;
import com.sun.source.tree.ExpressionTree;
import com.sun.source.tree.IfTree;
import com.sun.source.tree.LiteralTree;
import com.sun.source.tree.StatementTree;
import com.sun.source.tree.Tree;
import com.sun.source.tree.UnaryTree;
import java.util.List;
import javax.lang.model.element.VariableElement;
import javax.lang.model.type.TypeKind;

/**
 * A write that a look spares: {@code if (!closed) closed = true;}, or {@code if (last != now) last = now;}. To write what is
 * there already does nothing. So where the look leads to the write, the write alone does what both do at its moment: a path
 * has the look or the write, and never both. The value has to be the same for both. Of two equal numbers with a point one may
 * be less than nothing and the other not, and two equal boxes may be two objects: so these are left out.
 */
record IdleWrites(Services services, Body body, Statements statements) {

    /** Writes the branch, where it is such a one; whether it was written. */
    boolean write(IfTree tree) {
        List<? extends StatementTree> then = Tests.statements(tree.getThenStatement());
        if (tree.getElseStatement() != null || then.size() != 1 || !(then.get(0) instanceof ExpressionStatementTree only)
                || !(Uses.bare(only.getExpression()) instanceof AssignmentTree set) || set.getKind() != Tree.Kind.ASSIGNMENT) {
            return false;
        }
        ExpressionTree look = look(Uses.bare(tree.getCondition()), Uses.bare(set.getExpression()));
        if (look == null || !isSame(look, Uses.bare(set.getVariable())) || isBoxed(look, set.getExpression())) {
            return false;
        }
        Part looked = body.collect(() -> new Expressions(services, body).value(tree.getCondition()));
        services.methods().repeats(services.attribution().name(look), services.attribution().name(set.getVariable()));
        body.emit(new Part.Either(looked, body.collect(() -> statements.one(only))));
        return true;
    }

    /** The look of a condition that holds where what is looked at isn't this value; else null. */
    private ExpressionTree look(ExpressionTree condition, ExpressionTree value) {
        if (condition instanceof UnaryTree not && not.getKind() == Tree.Kind.LOGICAL_COMPLEMENT) {
            return is(value, true) ? Uses.bare(not.getExpression()) : null;
        } else if (condition instanceof BinaryTree compared && compared.getKind() == Tree.Kind.NOT_EQUAL_TO) {
            return isFixed(value) && Uses.bare(compared.getRightOperand()).toString().equals(value.toString())
                ? Uses.bare(compared.getLeftOperand()) : null;
        }
        return is(value, false) ? condition : null;
    }

    /** Whether one is an object and the other a number: then equal ones may be two objects. */
    private boolean isBoxed(ExpressionTree one, ExpressionTree other) {
        return services.attribution().type(one).getKind().isPrimitive()
            != services.attribution().type(other).getKind().isPrimitive();
    }

    private static boolean is(ExpressionTree value, boolean wanted) {
        return value instanceof LiteralTree literal && Boolean.valueOf(wanted).equals(literal.getValue());
    }

    private boolean isFixed(ExpressionTree value) {
        return value instanceof LiteralTree || services.attribution().element(value) instanceof VariableElement local
            && !local.getKind().isField() && services.uses().isSettled(local);
    }

    /** Whether both name the same field, of this object or of a class, which isn't a number with a point. */
    private boolean isSame(ExpressionTree look, ExpressionTree target) {
        Tests tests = new Tests(services);
        return tests.isOwn(look) && tests.isOwn(target) && services.attribution().element(look) instanceof VariableElement field
            && field.getKind().isField() && field == services.attribution().element(target)
            && field.asType().getKind() != TypeKind.FLOAT && field.asType().getKind() != TypeKind.DOUBLE;
    }
}
