package atomic.java.translation;

import atomic.java.ownership.Uses;
import com.sun.source.tree.AssignmentTree;
import com.sun.source.tree.ExpressionStatementTree;
import com.sun.source.tree.ExpressionTree;
import com.sun.source.tree.IdentifierTree;
import com.sun.source.tree.MemberSelectTree;
import com.sun.source.tree.MethodInvocationTree;
import com.sun.source.tree.StatementTree;
import com.sun.source.tree.VariableTree;
import java.util.List;
import java.util.Set;

/**
 * Locks that give a stamp when they are taken: {@code long stamp = lock.writeLock(); try { .. } finally {
 * lock.unlockWrite(stamp); }}. Such a lock is named by the call that takes it, or gives it back. Whatever else is done with
 * a stamp is a step.
 */
final class Stamps {
    private static final Set<String> TAKES = Set.of("writeLock", "readLock", "writeLockInterruptibly",
        "readLockInterruptibly");
    private static final Set<String> GIVES = Set.of("unlockWrite", "unlockRead", "unlock");

    private final Locking locking;

    Stamps(Locking locking) {
        this.locking = locking;
    }

    /** The call by which a statement takes a lock and keeps the stamp, or gives the lock back; null elsewhere. */
    ExpressionTree operand(StatementTree statement, boolean gives) {
        ExpressionTree call = null;
        if (gives && statement instanceof ExpressionStatementTree expression) {
            call = Uses.bare(expression.getExpression());
        } else if (!gives && statement instanceof VariableTree stamp && stamp.getInitializer() != null) {
            call = Uses.bare(stamp.getInitializer());
        } else if (!gives && statement instanceof ExpressionStatementTree expression
                && Uses.bare(expression.getExpression()) instanceof AssignmentTree kept
                && kept.getVariable() instanceof IdentifierTree) {
            call = Uses.bare(kept.getExpression());
        }
        return call != null && lockOf(call) != null && GIVES.contains(name(call)) == gives ? call : null;
    }

    /** The lock that such a call is on, or null. */
    ExpressionTree lockOf(ExpressionTree call) {
        return (TAKES.contains(name(call)) || GIVES.contains(name(call)))
            && ((MethodInvocationTree) call).getMethodSelect() instanceof MemberSelectTree select
            && locking.isA(select.getExpression(), "java.util.concurrent.locks.StampedLock") ? select.getExpression() : null;
    }

    /** Whether what one call takes the other one gives back; null where they are no such calls. */
    Boolean areSame(ExpressionTree taken, ExpressionTree given) {
        ExpressionTree one = lockOf(taken);
        ExpressionTree other = lockOf(given);
        if (one == null || other == null) {
            return one == null && other == null ? null : Boolean.FALSE;
        }
        boolean fits = name(given).equals("unlock")
            || name(taken).startsWith("write") == name(given).equals("unlockWrite");
        return fits && locking.areSame(one, other);
    }

    /** Whether a statement begins a look that takes no lock, and is checked afterwards. */
    static boolean looks(StatementTree statement, Uses uses) {
        return uses.hasStamped(statement, "tryOptimisticRead");
    }

    /** The statements behind the one that checks such a look. */
    static List<? extends StatementTree> behind(List<? extends StatementTree> all, Uses uses) {
        for (int k = 0; k < all.size(); k++) {
            if (uses.hasStamped(all.get(k), "validate")) {
                return all.subList(k, all.size());
            }
        }
        return all;
    }

    private static String name(ExpressionTree tree) {
        return tree instanceof MethodInvocationTree call && call.getMethodSelect() instanceof MemberSelectTree select
            ? select.getIdentifier().toString() : "";
    }
}
