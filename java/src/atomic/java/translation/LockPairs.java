package atomic.java.translation;

import atomic.java.ownership.Uses;
import atomic.java.skeleton.Part;
import atomic.java.skeleton.Value;
import com.sun.source.tree.AssignmentTree;
import com.sun.source.tree.BinaryTree;
import com.sun.source.tree.BlockTree;
import com.sun.source.tree.ConditionalExpressionTree;
import com.sun.source.tree.ExpressionTree;
import com.sun.source.tree.MemberSelectTree;
import com.sun.source.tree.MethodInvocationTree;
import com.sun.source.tree.NewClassTree;
import com.sun.source.tree.StatementTree;
import com.sun.source.tree.SynchronizedTree;
import com.sun.source.tree.Tree;
import com.sun.source.tree.UnaryTree;
import com.sun.source.tree.VariableTree;
import com.sun.source.util.TreeScanner;
import java.util.HashMap;
import java.util.List;
import java.util.Map;
import java.util.Set;
import javax.lang.model.element.ExecutableElement;
import javax.lang.model.element.Modifier;
import javax.lang.model.element.VariableElement;

/**
 * Two locks that are taken in an order which is found first: {@code first = c ? a : b; second = first == a ? b : a;
 * synchronized (first) { synchronized (second) { .. } }}. Whichever comes first, inside both a and b are locked, and
 * nothing is done between the two, so the locks count under the names a and b.
 */
final class LockPairs {
    /** Comparisons of values that never change. */
    private static final Set<String> COMPARING = Set.of("java.lang.String.compareTo", "java.lang.Long.compare",
        "java.lang.Integer.compare", "java.lang.Long.compareTo", "java.lang.Integer.compareTo",
        "java.lang.System.identityHashCode", "java.util.UUID.compareTo");

    private final Services services;
    private final Body body;
    private final Statements statements;

    LockPairs(Services services, Body body, Statements statements) {
        this.services = services;
        this.body = body;
        this.statements = statements;
    }

    /** Writes the two regions, where a statement is such ones; whether they were written. */
    boolean write(SynchronizedTree outer) {
        List<? extends StatementTree> inside = outer.getBlock().getStatements();
        if (inside.size() != 1 || !(inside.get(0) instanceof SynchronizedTree inner)) {
            return false;
        }
        List<ExpressionTree> pair = pair(outer.getExpression(), inner.getExpression());
        if (pair.isEmpty()) {
            return false;
        }
        Value left = new Locking(services, body).object(pair.get(0));
        Value right = new Locking(services, body).object(pair.get(1));
        if (left.path() == null || right.path() == null
                || pair.stream().anyMatch(each -> services.fields().isLock(services.attribution().type(each)))) {
            return false;
        }
        BlockTree block = inner.getBlock();
        Part held = new Part.Region(right.path(), Part.Mode.EXCLUSIVE, body.collect(() -> statements.one(block)),
            services.attribution().place(inner));
        body.emit(new Part.Region(left.path(), Part.Mode.EXCLUSIVE, held, services.attribution().place(outer)));
        return true;
    }

    /**
     * Writes regions of two locks with methods, {@code first.lock.lock(); try { second.lock.lock(); ..}}, of which nothing
     * stands between the two: within them {@code first} and {@code second} count as a and b.
     */
    void named(ExpressionTree outer, ExpressionTree inner, Runnable regions) {
        List<ExpressionTree> pair = inner != null && outer instanceof MemberSelectTree one
            && inner instanceof MemberSelectTree other && one.getIdentifier().equals(other.getIdentifier())
            ? pair(one.getExpression(), other.getExpression()) : List.of();
        if (pair.isEmpty()) {
            regions.run();
            return;
        }
        Map<VariableElement, Value> before = new HashMap<>(body.locals());
        Locking locking = new Locking(services, body);
        body.locals().put(local(((MemberSelectTree) outer).getExpression()), locking.object(pair.get(0)));
        body.locals().put(local(((MemberSelectTree) inner).getExpression()), locking.object(pair.get(1)));
        regions.run();
        body.locals().putAll(before);
    }

    private List<ExpressionTree> pair(ExpressionTree outer, ExpressionTree inner) {
        VariableElement one = local(outer);
        VariableElement other = local(inner);
        List<ExpressionTree> pair = one == null || other == null ? List.of() : pair(one, other);
        return pair.isEmpty() && one != null && other != null ? pair(other, one) : pair;
    }

    /** The two variables that {@code first} and {@code second} are, whichever is which; none where that isn't sure. */
    private List<ExpressionTree> pair(VariableElement first, VariableElement second) {
        if (!(value(first) instanceof ConditionalExpressionTree chosen)
                || !(value(second) instanceof ConditionalExpressionTree rest)) {
            return List.of();
        }
        ExpressionTree a = Uses.bare(chosen.getTrueExpression());
        ExpressionTree b = Uses.bare(chosen.getFalseExpression());
        Object left = name(a);
        Object right = name(b);
        if (left != null && right != null && !left.equals(right) && right.equals(name(rest.getTrueExpression()))
                && left.equals(name(rest.getFalseExpression()))
                && chosen.getCondition().toString().equals(rest.getCondition().toString()) && isFixed(chosen.getCondition())) {
            return List.of(a, b);
        }
        if (left == null || right == null || left.equals(right)
                || !(Uses.bare(rest.getCondition()) instanceof BinaryTree compared)) {
            return List.of();
        }
        boolean equal = compared.getKind() == Tree.Kind.EQUAL_TO;
        Object same = local(compared.getLeftOperand()) == first ? name(compared.getRightOperand())
            : local(compared.getRightOperand()) == first ? name(compared.getLeftOperand()) : null;
        Object whereSame = name(equal ? rest.getTrueExpression() : rest.getFalseExpression());
        Object whereNot = name(equal ? rest.getFalseExpression() : rest.getTrueExpression());
        boolean sure = (equal || compared.getKind() == Tree.Kind.NOT_EQUAL_TO) && (left.equals(same) || right.equals(same))
            && same.equals(whereNot) && (left.equals(same) ? right : left).equals(whereSame);
        return sure ? List.of(a, b) : List.of();
    }

    /** Whether a condition tells the same each time: it compares locals and parameters that keep their values, and final fields. */
    private boolean isFixed(ExpressionTree condition) {
        boolean[] fixed = {true};
        new TreeScanner<Void, Void>() {
            @Override
            public Void scan(Tree tree, Void nothing) {
                if (tree instanceof ExpressionTree && services.attribution().element(tree) instanceof VariableElement variable
                        && !Uses.isName(tree, "this")) {
                    fixed[0] &= variable.getKind().isField() ? variable.getModifiers().contains(Modifier.FINAL)
                        : services.uses().isSettled(variable);
                } else if (tree instanceof MethodInvocationTree call) {
                    fixed[0] &= services.attribution().element(call) instanceof ExecutableElement symbol
                        && COMPARING.contains(symbol.getEnclosingElement() + "." + symbol.getSimpleName());
                } else if (tree instanceof NewClassTree || tree instanceof AssignmentTree || tree instanceof UnaryTree) {
                    fixed[0] = false;
                }
                return super.scan(tree, nothing);
            }
        }.scan(condition, null);
        return fixed[0];
    }

    /** What a local or parameter is given, once and for all; null elsewhere. */
    private ExpressionTree value(VariableElement local) {
        VariableTree tree = services.uses().declaration(local);
        return tree == null || tree.getInitializer() == null ? null : Uses.bare(tree.getInitializer());
    }

    /** What names an object: {@code this}, or a local or parameter that keeps its value; else null. */
    private Object name(ExpressionTree tree) {
        return Uses.isName(Uses.bare(tree), "this") ? "this" : local(tree);
    }

    /** The local or parameter that an expression names and that keeps its value, or null. */
    private VariableElement local(ExpressionTree tree) {
        return services.attribution().element(Uses.bare(tree)) instanceof VariableElement found
            && !found.getKind().isField() && services.uses().isSettled(found) ? found : null;
    }
}
