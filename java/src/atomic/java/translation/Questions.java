package atomic.java.translation;

import atomic.java.ownership.Uses;
import atomic.java.program.JavaMethod;
import com.sun.source.tree.BinaryTree;
import com.sun.source.tree.ExpressionStatementTree;
import com.sun.source.tree.ExpressionTree;
import com.sun.source.tree.IdentifierTree;
import com.sun.source.tree.IfTree;
import com.sun.source.tree.LiteralTree;
import com.sun.source.tree.MemberSelectTree;
import com.sun.source.tree.MethodInvocationTree;
import com.sun.source.tree.ReturnTree;
import com.sun.source.tree.StatementTree;
import com.sun.source.tree.Tree;
import com.sun.source.tree.UnaryTree;
import java.util.List;
import java.util.Set;
import java.util.stream.IntStream;
import javax.lang.model.element.Element;
import javax.lang.model.element.ElementKind;
import javax.lang.model.element.Modifier;
import javax.lang.model.element.VariableElement;

/**
 * A question in front of a call that asks again: {@code if (!isRunning()) start();}, where {@code isRunning} gives
 * {@code running}, and {@code start} takes a lock and begins with {@code if (running) return;}. What {@code start} gives isn't
 * kept. So where the first question leads to the call, the second one decides alone: where it tells otherwise, the call
 * leaves and has done nothing, as the whole would have done then. The two questions have to be the same, of the same
 * arguments, and to do nothing but to look. They stand in two methods that may both be called by themselves: so the first
 * counts as a step all the same, and only where what is certain counts it doesn't.
 */
record Questions(Services services, Regions regions) {
    private static final Set<String> LOOKS = Set.of("containsKey", "contains", "isEmpty", "size", "length");

    /** A call of a method of the same object, or of none. */
    private record Call(MethodInvocationTree tree, JavaMethod method) { }

    /** A condition without what negates it. */
    private record Condition(ExpressionTree core, boolean holds) {

        static Condition of(ExpressionTree tree) {
            ExpressionTree bare = Uses.bare(tree);
            if (bare instanceof UnaryTree not && not.getKind() == Tree.Kind.LOGICAL_COMPLEMENT) {
                Condition inner = of(not.getExpression());
                return new Condition(inner.core(), !inner.holds());
            }
            return new Condition(bare, true);
        }
    }

    /** Whether the condition of a branch is asked again by the call that is all of it. */
    boolean isAskedAgain(IfTree tree) {
        Condition first = Condition.of(tree.getCondition());
        Call asks = call(first.core());
        List<? extends StatementTree> then = Tests.statements(tree.getThenStatement());
        Call acts = tree.getElseStatement() == null && then.size() == 1
            && then.get(0) instanceof ExpressionStatementTree only ? call(only.getExpression()) : null;
        ExpressionTree given = asks == null || acts == null ? null : given(asks.method());
        ExpressionTree left = given == null ? null : left(acts.method());
        if (left == null || asks.method().owner() != acts.method().owner()) {
            return false;
        }
        Condition answer = Condition.of(given);
        Condition leaves = Condition.of(left);
        boolean again = leaves.holds() != (answer.holds() == first.holds()) && isSame(answer.core(), leaves.core(), asks, acts);
        if (again) {
            services.hint(tree.getCondition(), "second look: " + acts.method().symbol().getSimpleName()
                + " asks the same again, so that this question decides nothing; it counts as a step all the same");
        }
        return again;
    }

    /** A call of a method of the sources on this object, in whose place no other one runs, with what keeps its value. */
    private Call call(ExpressionTree tree) {
        if (!(Uses.bare(tree) instanceof MethodInvocationTree call) || !new Tests(services).isOwn(call.getMethodSelect())) {
            return null;
        }
        JavaMethod method = services.program().method(services.attribution().element(call));
        boolean fixed = method != null && method.tree().getBody() != null
            && services.ownership().localFunctions().isFixed(method)
            && call.getArguments().stream().allMatch(this::isFixed);
        return fixed ? new Call(call, method) : null;
    }

    private boolean isFixed(ExpressionTree tree) {
        return tree instanceof LiteralTree || services.attribution().element(Uses.bare(tree)) instanceof VariableElement local
            && !local.getKind().isField() && services.uses().isSettled(local);
    }

    /** What a method gives that only looks, within a region or without one; else null. */
    private ExpressionTree given(JavaMethod method) {
        List<? extends StatementTree> all = method.tree().getBody().getStatements();
        List<? extends StatementTree> inside = regions.inside(all, true);
        List<? extends StatementTree> asked = inside == null ? all : inside;
        return asked.size() == 1 && asked.get(0) instanceof ReturnTree only ? only.getExpression() : null;
    }

    /** The condition with which a method's only region leaves it at its beginning, without any step; else null. */
    private ExpressionTree left(JavaMethod method) {
        List<? extends StatementTree> all = method.tree().getBody().getStatements();
        boolean whole = method.symbol().getModifiers().contains(Modifier.SYNCHRONIZED);
        List<? extends StatementTree> inside = whole ? all : regions.inside(all, true);
        if (inside == null || inside.isEmpty() || !(inside.get(0) instanceof IfTree branch)
                || branch.getElseStatement() != null) {
            return null;
        }
        List<? extends StatementTree> then = Tests.statements(branch.getThenStatement());
        boolean leaves = then.size() == 1 && then.get(0) instanceof ReturnTree last
            && (last.getExpression() == null || last.getExpression() instanceof LiteralTree);
        return leaves ? branch.getCondition() : null;
    }

    /** Whether two expressions of two methods are the same looks at the same, for the arguments of these calls. */
    private boolean isSame(ExpressionTree one, ExpressionTree other, Call asks, Call acts) {
        ExpressionTree left = Uses.bare(one);
        ExpressionTree right = Uses.bare(other);
        if (left.getKind() != right.getKind()) {
            return false;
        } else if (left instanceof BinaryTree first && right instanceof BinaryTree second) {
            return isSame(first.getLeftOperand(), second.getLeftOperand(), asks, acts)
                && isSame(first.getRightOperand(), second.getRightOperand(), asks, acts);
        } else if (left instanceof MethodInvocationTree first && right instanceof MethodInvocationTree second) {
            return first.getMethodSelect() instanceof MemberSelectTree look && LOOKS.contains(look.getIdentifier().toString())
                && second.getMethodSelect() instanceof MemberSelectTree again
                && look.getIdentifier().equals(again.getIdentifier())
                && services.program().method(services.attribution().element(first)) == null
                && isSame(look.getExpression(), again.getExpression(), asks, acts)
                && first.getArguments().size() == second.getArguments().size()
                && IntStream.range(0, first.getArguments().size()).allMatch(k ->
                    isSame(first.getArguments().get(k), second.getArguments().get(k), asks, acts));
        } else if (left instanceof LiteralTree) {
            return left.toString().equals(right.toString());
        }
        return (left instanceof IdentifierTree || left instanceof MemberSelectTree && new Tests(services).isOwn(left)
            && new Tests(services).isOwn(right)) && isSame(services.attribution().element(left),
                services.attribution().element(right), asks, acts);
    }

    private boolean isSame(Element one, Element other, Call asks, Call acts) {
        if (one == null || one.getKind() != ElementKind.PARAMETER) {
            return one != null && one == other && one.getKind().isField();
        }
        int first = asks.method().symbol().getParameters().indexOf(one);
        int second = acts.method().symbol().getParameters().indexOf(other);
        return first >= 0 && second >= 0 && services.uses().isSettled((VariableElement) one)
            && services.uses().isSettled((VariableElement) other) && asks.tree().getArguments().get(first).toString()
                .equals(acts.tree().getArguments().get(second).toString());
    }
}
