package atomic.java.translation;

import atomic.java.ownership.Uses;
import com.sun.source.tree.AssignmentTree;
import com.sun.source.tree.BinaryTree;
import com.sun.source.tree.BlockTree;
import com.sun.source.tree.ExpressionStatementTree;
import com.sun.source.tree.ExpressionTree;
import com.sun.source.tree.IdentifierTree;
import com.sun.source.tree.LiteralTree;
import com.sun.source.tree.MemberSelectTree;
import com.sun.source.tree.MethodInvocationTree;
import com.sun.source.tree.StatementTree;
import com.sun.source.tree.Tree;
import com.sun.source.tree.UnaryTree;
import com.sun.source.tree.VariableTree;
import java.util.List;
import javax.lang.model.element.Element;
import javax.lang.model.element.ElementKind;
import javax.lang.model.element.Modifier;
import javax.lang.model.element.VariableElement;

/** Conditions that look at one variable: a volatile field, or an atomic one, which is compared with a value. */
final class Tests {
    private final Services services;

    Tests(Services services) {
        this.services = services;
    }

    /**
     * A condition on what one variable holds.
     *
     * @param look the look at the variable; null where {@code local} is tested, which keeps what was looked at
     * @param local the local that keeps what was looked at, or null
     * @param variable the variable that is looked at, or null
     * @param kind how its value is compared: as in Java, or IDENTIFIER where it is a condition itself
     * @param value what it is compared with, as it is written
     */
    record Test(ExpressionTree look, VariableElement local, Element variable, Tree.Kind kind, String value) {

        /** The same condition on what this look gives. */
        Test at(Test known) {
            return new Test(known.look(), local, known.variable(), kind, value);
        }

        /** Whether two conditions on the same variable are the same. */
        boolean isLike(Test other) {
            return variable == other.variable() && kind == other.kind() && value.equals(other.value());
        }

        boolean isNull() {
            return kind == Tree.Kind.EQUAL_TO && value.equals("null");
        }

        /** Whether another condition on the same variable holds, or doesn't, where this one holds; null if neither is sure. */
        Boolean implies(Test other) {
            if (variable != other.variable()) {
                return null;
            } else if (isLike(other)) {
                return true;
            } else if (value.equals(other.value()) && kind == negated(other.kind())) {
                return false;
            }
            return kind == Tree.Kind.EQUAL_TO && number(value) != null && number(other.value()) != null
                ? other.holds(number(value)) : null;
        }

        private Boolean holds(long at) {
            long with = number(value);
            return switch (kind) {
                case EQUAL_TO -> at == with;
                case NOT_EQUAL_TO -> at != with;
                case LESS_THAN -> at < with;
                case LESS_THAN_EQUAL -> at <= with;
                case GREATER_THAN -> at > with;
                case GREATER_THAN_EQUAL -> at >= with;
                default -> null;
            };
        }

        private static Tree.Kind negated(Tree.Kind kind) {
            return switch (kind) {
                case EQUAL_TO -> Tree.Kind.NOT_EQUAL_TO;
                case NOT_EQUAL_TO -> Tree.Kind.EQUAL_TO;
                case IDENTIFIER -> Tree.Kind.LOGICAL_COMPLEMENT;
                case LOGICAL_COMPLEMENT -> Tree.Kind.IDENTIFIER;
                default -> null;
            };
        }

        private static Long number(String text) {
            return text.matches("-?\\d{1,9}") ? Long.valueOf(text) : null;
        }
    }

    /** The test that a condition is, or null. */
    Test of(ExpressionTree condition) {
        ExpressionTree tree = Uses.bare(condition);
        if (tree instanceof UnaryTree not && not.getKind() == Tree.Kind.LOGICAL_COMPLEMENT) {
            return with(Uses.bare(not.getExpression()), Tree.Kind.LOGICAL_COMPLEMENT, "");
        }
        return tree instanceof BinaryTree compared ? compared(compared) : with(tree, Tree.Kind.IDENTIFIER, "");
    }

    private Test compared(BinaryTree tree) {
        ExpressionTree value = Uses.bare(tree.getRightOperand());
        return switch (tree.getKind()) {
            case EQUAL_TO, NOT_EQUAL_TO, LESS_THAN, LESS_THAN_EQUAL, GREATER_THAN, GREATER_THAN_EQUAL ->
                isFixed(value) ? with(Uses.bare(tree.getLeftOperand()), tree.getKind(), value.toString()) : null;
            default -> null;
        };
    }

    private Test with(ExpressionTree subject, Tree.Kind kind, String value) {
        if (subject instanceof AssignmentTree kept && local(kept.getVariable()) != null) {
            ExpressionTree look = Uses.bare(kept.getExpression());
            return variable(look) == null ? null : new Test(look, local(kept.getVariable()), variable(look), kind, value);
        } else if (local(subject) != null) {
            return new Test(null, local(subject), null, kind, value);
        }
        return variable(subject) == null ? null : new Test(subject, null, variable(subject), kind, value);
    }

    private VariableElement local(ExpressionTree tree) {
        return services.attribution().element(Uses.bare(tree)) instanceof VariableElement found
            && found.getKind() == ElementKind.LOCAL_VARIABLE ? found : null;
    }

    /** Whether an expression has the same value each time: one that is written down, or a name that keeps its value. */
    private boolean isFixed(ExpressionTree tree) {
        return tree instanceof LiteralTree || tree instanceof IdentifierTree
            && services.attribution().element(tree) instanceof VariableElement named
            && (named.getKind().isField() ? named.getConstantValue() != null : services.uses().isSettled(named));
    }

    /** The volatile field, or the atomic variable, that an expression looks at, and does nothing else; or null. */
    Element variable(ExpressionTree written) {
        ExpressionTree tree = Uses.bare(written);
        if (tree instanceof MethodInvocationTree call) {
            return call.getMethodSelect() instanceof MemberSelectTree select && call.getArguments().isEmpty()
                && select.getIdentifier().contentEquals("get") ? Attempt.variable(call, services) : null;
        }
        Element symbol = services.attribution().element(tree);
        return isOwn(tree) && symbol instanceof VariableElement field && field.getKind() == ElementKind.FIELD
            && field.getModifiers().contains(Modifier.VOLATILE) ? field : null;
    }

    /** Whether an expression names a variable by itself, of this object, or of a class. */
    boolean isOwn(ExpressionTree tree) {
        Element symbol = services.attribution().element(tree);
        return tree instanceof IdentifierTree || tree instanceof MemberSelectTree select && symbol != null
            && (Uses.isName(select.getExpression(), "this") || symbol.getModifiers().contains(Modifier.STATIC));
    }

    /** The local that a statement gives what it looks at, or null. */
    VariableElement assigned(StatementTree statement) {
        Test given = value(statement);
        return given == null ? null : given.local();
    }

    /** The look of a statement that keeps it in a local, or null. */
    Test value(StatementTree statement) {
        if (statement instanceof VariableTree declared && declared.getInitializer() != null
                && services.attribution().element(declared) instanceof VariableElement local) {
            ExpressionTree look = Uses.bare(declared.getInitializer());
            return variable(look) == null ? null : new Test(look, local, variable(look), Tree.Kind.IDENTIFIER, "");
        }
        return statement instanceof ExpressionStatementTree expression
            && Uses.bare(expression.getExpression()) instanceof AssignmentTree assignment
            && local(assignment.getVariable()) != null ? with(assignment, Tree.Kind.IDENTIFIER, "") : null;
    }

    /** The statements of a block, or a statement alone. */
    static List<? extends StatementTree> statements(StatementTree statement) {
        return statement instanceof BlockTree block ? block.getStatements() : List.of(statement);
    }
}
