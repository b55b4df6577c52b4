package atomic.java.translation;

import atomic.java.ownership.Uses;
import com.sun.source.tree.AssignmentTree;
import com.sun.source.tree.BinaryTree;
import com.sun.source.tree.BlockTree;
import com.sun.source.tree.ClassTree;
import com.sun.source.tree.ExpressionTree;
import com.sun.source.tree.IfTree;
import com.sun.source.tree.LambdaExpressionTree;
import com.sun.source.tree.MemberSelectTree;
import com.sun.source.tree.MethodInvocationTree;
import com.sun.source.tree.Tree;
import com.sun.source.tree.UnaryTree;
import java.util.Comparator;
import java.util.List;
import java.util.Set;
import java.util.function.Predicate;
import javax.lang.model.element.ElementKind;
import javax.lang.model.element.VariableElement;

/**
 * Changes that only add what isn't there: {@code if (map.get(k) == null) map.put(k, v);}, where one region of a lock has the
 * question and the change. What was found before is found behind it too.
 */
record Additions(Services services) {

    /** What is asked: a look that gives null where nothing is there, and one that gives whether something is. */
    private record Question(Tree region, Predicate<ExpressionTree> look, Predicate<ExpressionTree> has) { }

    /** Whether a {@code put} stands where its region has found that one of these maps hasn't its key. */
    boolean adds(MethodInvocationTree put, Set<String> maps) {
        return adds(put, maps, services.stable().region(put));
    }

    /** Whether its method, or the function that it stands in, has found that. */
    boolean addsAlone(MethodInvocationTree put, Set<String> maps) {
        return adds(put, maps, services.program().around(put));
    }

    private boolean adds(MethodInvocationTree put, Set<String> maps, Tree region) {
        if (put.getArguments().size() != 2) {
            return false;
        }
        String key = put.getArguments().get(0).toString();
        return isAbsent(put, new Question(region, tree -> isCall(tree, "get", maps, key),
            tree -> isCall(tree, "containsKey", maps, key)));
    }

    /** Whether a tree stands where its region has found that a field is null. */
    boolean isUnset(Tree at, VariableElement field) {
        return isAbsent(at, new Question(services.stable().region(at), tree -> new Tests(services).isOwn(tree)
            && services.attribution().element(tree) == field, tree -> false));
    }

    private static boolean isCall(ExpressionTree tree, String name, Set<String> maps, String key) {
        return tree instanceof MethodInvocationTree call && call.getMethodSelect() instanceof MemberSelectTree select
            && select.getIdentifier().contentEquals(name) && maps.contains(select.getExpression().toString())
            && call.getArguments().size() == 1 && call.getArguments().get(0).toString().equals(key);
    }

    /** Whether the tests around a tree, and those before it that leave, tell that nothing is there. */
    private boolean isAbsent(Tree at, Question asked) {
        Tree inner = at;
        Tree each = services.attribution().parent(at);
        while (asked.region() != null && each != null && inner != asked.region()
                && !(each instanceof LambdaExpressionTree) && !(each instanceof ClassTree)) {
            boolean told = each instanceof IfTree branch
                && (inner == branch.getThenStatement() && tells(branch.getCondition(), true, asked)
                    || inner == branch.getElseStatement() && tells(branch.getCondition(), false, asked));
            if (told || each instanceof BlockTree block && isLeft(block, inner, asked)) {
                return true;
            }
            inner = each;
            each = services.attribution().parent(each);
        }
        return false;
    }

    /** Whether a branch in front of a statement leaves the block where something is there. */
    private boolean isLeft(BlockTree block, Tree statement, Question asked) {
        return block.getStatements().stream().takeWhile(each -> each != statement).anyMatch(each ->
            each instanceof IfTree branch && branch.getElseStatement() == null && Jumps.ends(branch.getThenStatement())
                && tells(branch.getCondition(), false, asked));
    }

    /** Whether nothing is there where a condition holds, or where it doesn't. */
    private boolean tells(ExpressionTree condition, boolean holds, Question asked) {
        ExpressionTree tree = Uses.bare(condition);
        if (tree instanceof UnaryTree not && not.getKind() == Tree.Kind.LOGICAL_COMPLEMENT) {
            return tells(not.getExpression(), !holds, asked);
        } else if (tree instanceof BinaryTree both) {
            Tree.Kind sides = holds ? Tree.Kind.CONDITIONAL_AND : Tree.Kind.CONDITIONAL_OR;
            Tree.Kind compared = holds ? Tree.Kind.EQUAL_TO : Tree.Kind.NOT_EQUAL_TO;
            return both.getKind() == sides && (tells(both.getLeftOperand(), holds, asked)
                || tells(both.getRightOperand(), holds, asked))
                || both.getKind() == compared && both.getRightOperand().getKind() == Tree.Kind.NULL_LITERAL
                    && isLook(Uses.bare(both.getLeftOperand()), asked);
        }
        return !holds && asked.has().test(tree) && isWithin(tree, asked.region());
    }

    /** Whether an expression is a look within the region, or a local that has last been given one. */
    private boolean isLook(ExpressionTree tree, Question asked) {
        if (tree instanceof AssignmentTree assignment) {
            return isLook(Uses.bare(assignment.getExpression()), asked);
        } else if (services.attribution().element(tree) instanceof VariableElement local
                && local.getKind() == ElementKind.LOCAL_VARIABLE) {
            List<Uses.Assignment> all = services.uses().assignments(local);
            ExpressionTree last = all.stream().filter(each -> start(each.tree()) < start(tree))
                .max(Comparator.comparing(each -> start(each.tree()))).map(Uses.Assignment::value).orElse(null);
            return last != null && isDirect(Uses.bare(last), asked);
        }
        return isDirect(tree, asked);
    }

    private boolean isDirect(ExpressionTree tree, Question asked) {
        return asked.look().test(tree) && isWithin(tree, asked.region());
    }

    private boolean isWithin(Tree tree, Tree region) {
        return start(tree) >= start(region) && start(tree) < services.attribution().end(region);
    }

    private long start(Tree tree) {
        return services.attribution().start(tree);
    }
}
