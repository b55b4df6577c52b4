package atomic.java.translation;

import atomic.java.ownership.Uses;
import com.sun.source.tree.AssignmentTree;
import com.sun.source.tree.BlockTree;
import com.sun.source.tree.ExpressionStatementTree;
import com.sun.source.tree.ExpressionTree;
import com.sun.source.tree.IdentifierTree;
import com.sun.source.tree.IfTree;
import com.sun.source.tree.MethodInvocationTree;
import com.sun.source.tree.ReturnTree;
import com.sun.source.tree.StatementTree;
import com.sun.source.tree.ThrowTree;
import com.sun.source.tree.Tree;
import com.sun.source.tree.VariableTree;
import com.sun.source.tree.WhileLoopTree;
import com.sun.source.util.TreeScanner;
import java.util.List;
import javax.lang.model.element.VariableElement;

/**
 * A call that is asked first, in front of a region that asks again: {@code V v = peek(k); if (v != null) return v; lock.lock();
 * try { if (find(k) == null) ..}}. What the first one found is given back, and else nothing of it is kept, so it may be as if
 * it hadn't been. It isn't known that both ask the same: so it counts, and only where what is certain counts it doesn't.
 */
final class SecondLooks {

    /** How far behind the beginning of a region its own question stands. */
    private static final int FIRST = 4;

    private final Services services;
    private final Regions regions;

    SecondLooks(Services services, Regions regions) {
        this.services = services;
        this.regions = regions;
    }

    /** How many statements such a first question takes; 0 where these begin with none. */
    int first(List<? extends StatementTree> all) {
        VariableTree kept = !all.isEmpty() && all.get(0) instanceof VariableTree variable && asks(variable.getInitializer())
            ? variable : null;
        int at = kept == null ? 0 : 1;
        if (all.size() < at + 2 || !(all.get(at) instanceof IfTree branch) || branch.getElseStatement() != null
                || kept == null && !asks(branch.getCondition()) || !gives(branch.getThenStatement())) {
            return 0;
        }
        List<? extends StatementTree> rest = all.subList(at + 1, all.size());
        List<? extends StatementTree> inside = regions.inside(rest, false);
        boolean again = inside != null && inside.stream().limit(FIRST).anyMatch(IfTree.class::isInstance);
        boolean dropped = again && (kept == null || services.attribution().element(kept) instanceof VariableElement local
            && mentions(branch.getCondition(), local) && (!mentions(rest, local) || isGivenAnew(inside, local)));
        if (!dropped) {
            return 0;
        }
        services.hint(kept == null ? branch.getCondition() : kept, "second look: the region behind this asks again, so that"
            + " what is asked first may decide nothing; it counts as a step all the same");
        return at + 1;
    }

    /**
     * The region at the end of an endless loop's turn that leaves the loop where nobody came in between, and else does
     * nothing: the turns before are as if they hadn't been, and so is what this turn looks at in front of it. Else null.
     */
    StatementTree optimistic(WhileLoopTree loop) {
        if (!Retries.isTrue(loop.getCondition()) || !(loop.getStatement() instanceof BlockTree block)
                || block.getStatements().isEmpty()) {
            return null;
        }
        List<? extends StatementTree> all = block.getStatements();
        StatementTree last = all.get(all.size() - 1);
        List<? extends StatementTree> inside = regions.inside(List.of(last), true);
        boolean tests = inside != null && inside.size() == 1 && inside.get(0) instanceof IfTree branch
            && branch.getElseStatement() == null && Jumps.ends(branch.getThenStatement());
        if (!tests || !all.subList(0, all.size() - 1).stream().allMatch(VariableTree.class::isInstance)) {
            return null;
        }
        services.hint(last, "another turn: a turn that fails may do nothing, and one that succeeds may tell that nobody came in"
            + " between; each counts as steps all the same");
        return last;
    }

    /** Whether a region begins by giving a local a value of its own. */
    private boolean isGivenAnew(List<? extends StatementTree> inside, VariableElement local) {
        return inside != null && !inside.isEmpty() && inside.get(0) instanceof ExpressionStatementTree first
            && first.getExpression() instanceof AssignmentTree given && !mentions(given.getExpression(), local)
            && services.attribution().element(given.getVariable()) == local;
    }

    private static boolean asks(ExpressionTree tree) {
        boolean[] found = new boolean[1];
        new TreeScanner<Void, Void>() {
            @Override
            public Void visitMethodInvocation(MethodInvocationTree call, Void nothing) {
                found[0] = true;
                return null;
            }
        }.scan(tree, null);
        return found[0];
    }

    /** Whether a branch only gives back what is known, or throws. */
    private static boolean gives(StatementTree statement) {
        StatementTree only = statement instanceof BlockTree block && block.getStatements().size() == 1
            ? block.getStatements().get(0) : statement;
        return only instanceof ThrowTree || only instanceof ReturnTree given
            && (given.getExpression() == null || !asks(Uses.bare(given.getExpression())));
    }

    private boolean mentions(Object trees, VariableElement local) {
        boolean[] found = new boolean[1];
        TreeScanner<Void, Void> scanner = new TreeScanner<>() {
            @Override
            public Void visitIdentifier(IdentifierTree tree, Void nothing) {
                found[0] |= services.attribution().element(tree) == local;
                return null;
            }
        };
        if (trees instanceof Tree tree) {
            scanner.scan(tree, null);
        } else if (trees instanceof List<?> all) {
            all.forEach(each -> scanner.scan((Tree) each, null));
        }
        return found[0];
    }
}
