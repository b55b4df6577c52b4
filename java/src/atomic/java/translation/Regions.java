package atomic.java.translation;

import atomic.java.ownership.Uses;
import atomic.java.places.Notes;
import atomic.java.skeleton.Part;
import com.sun.source.tree.BlockTree;
import com.sun.source.tree.ExpressionTree;
import com.sun.source.tree.IfTree;
import com.sun.source.tree.StatementTree;
import com.sun.source.tree.SynchronizedTree;
import com.sun.source.tree.Tree;
import com.sun.source.tree.TryTree;
import com.sun.source.tree.UnaryTree;
import com.sun.source.tree.VariableTree;
import java.util.List;

/**
 * Regions of locks with methods: {@code lock.lock(); try { .. } finally { lock.unlock(); }} and forms like it. A method of
 * the same object that only takes locks, or only gives them back, may stand for these. Any other use of such a lock is a
 * step that guards nothing.
 */
final class Regions {
    private static final String[] TAKES = {"lock", "lockInterruptibly"};

    private final Services services;
    private final Body body;
    private final Statements statements;
    private final Locking locking;

    Regions(Services services, Body body, Statements statements) {
        this.services = services;
        this.body = body;
        this.statements = statements;
        locking = new Locking(services, body);
    }

    /** Writes the region that a statement begins, and says how many of the statements behind it belong to it. */
    int region(StatementTree statement, List<? extends StatementTree> rest) {
        List<ExpressionTree> locks = locking.operands(statement, TAKES);
        if (locks.isEmpty()) {
            return 0;
        }
        if (both(statement, locks, rest)) {
            return 2;
        }
        int length = length(locks, rest);
        if (length == 0) {
            services.tell(Notes.Kind.APPROXIMATED, body, locks.get(0), "lock and unlock stand in no form that is known here,"
                + " so the lock counts as never held");
            body.locksSomehow();
            return services.program().sure() ? open(statement, locks, rest) : 0;
        }
        new LockPairs(services, body, statements).named(locks.get(0), next(locks, rest.subList(0, length)), () ->
            held(taken(locks), statement, () -> inside(locks, rest.subList(0, length))));
        behind(locks, rest.get(length - 1));
        return length;
    }

    /** Writes a region of two locks, which are taken one after the other, and given back in one {@code finally}; whether it is one. */
    private boolean both(StatementTree statement, List<ExpressionTree> outer, List<? extends StatementTree> rest) {
        List<ExpressionTree> inner = rest.size() < 2 || outer.size() != 1 ? List.of() : locking.operands(rest.get(0), TAKES);
        if (inner.size() != 1 || !(rest.get(1) instanceof TryTree tried) || tried.getFinallyBlock() == null
                || !tried.getResources().isEmpty() || tried.getFinallyBlock().getStatements().size() != 2) {
            return false;
        }
        StatementTree one = tried.getFinallyBlock().getStatements().get(0);
        StatementTree other = tried.getFinallyBlock().getStatements().get(1);
        if (!(isRelease(one, inner) && isRelease(other, outer)) && !(isRelease(one, outer) && isRelease(other, inner))) {
            return false;
        }
        new LockPairs(services, body, statements).named(outer.get(0), inner.get(0), () -> held(taken(outer), statement, () ->
            held(taken(inner), rest.get(0), () -> {
                statements.all(tried.getBlock().getStatements());
                statements.catches(tried);
            })));
        return true;
    }

    /** The lock that the first statement of a region takes, where it takes one and nothing else stands in the region. */
    private ExpressionTree next(List<ExpressionTree> locks, List<? extends StatementTree> region) {
        if (locks.size() != 1 || region.size() != 1 || !(region.get(0) instanceof TryTree tried)
                || !tried.getResources().isEmpty() || !tried.getCatches().isEmpty()
                || tried.getFinallyBlock().getStatements().size() != 1) {
            return null;
        }
        List<? extends StatementTree> all = tried.getBlock().getStatements();
        List<ExpressionTree> inner = all.isEmpty() ? List.of() : locking.operands(all.get(0), TAKES);
        return inner.size() == 1 && length(inner, all.subList(1, all.size())) == all.size() - 1 ? inner.get(0) : null;
    }

    /**
     * The statements of the region that these begin with, where a region does nothing else; null where there is none, or,
     * if it has to stand {@code alone}, something behind it.
     */
    List<? extends StatementTree> inside(List<? extends StatementTree> all, boolean alone) {
        if (!all.isEmpty() && all.get(0) instanceof SynchronizedTree region) {
            return alone && all.size() > 1 ? null : region.getBlock().getStatements();
        }
        List<ExpressionTree> locks = all.size() < 2 || alone && all.size() > 2 ? List.of()
            : locking.operands(all.get(0), TAKES);
        return !locks.isEmpty() && all.get(1) instanceof TryTree tried && tried.getResources().isEmpty()
            && release(locks, tried) == 0 && tried.getFinallyBlock().getStatements().size() == 1
            ? tried.getBlock().getStatements() : null;
    }

    /** Whether the region that these begin with has the same lock each time: of a class, or, if not {@code ofClass}, of this. */
    boolean isFixed(List<? extends StatementTree> all, boolean ofClass) {
        StatementTree begin = all.stream().filter(each -> !(each instanceof VariableTree)).findFirst().orElseThrow();
        List<ExpressionTree> locks = begin instanceof SynchronizedTree region
            ? List.of(Uses.bare(region.getExpression())) : locking.operands(begin, TAKES);
        return locks.stream().anyMatch(each -> locking.isFixed(each, ofClass));
    }

    private List<Locking.Lock> taken(List<ExpressionTree> locks) {
        return locks.stream().map(locking::lock).toList();
    }

    /** Writes what is done while the locks are held, which are taken one after the other. */
    private void held(List<Locking.Lock> taken, Tree at, Runnable inside) {
        Part part = body.collect(inside);
        for (int k = taken.size() - 1; k >= 0; k--) {
            part = new Part.Region(taken.get(k).path(), taken.get(k).mode(), part, services.attribution().place(at));
        }
        body.emit(part);
    }

    /** A region that may end anywhere is one to the end, where only what is certain counts. */
    private int open(StatementTree statement, List<ExpressionTree> locks, List<? extends StatementTree> rest) {
        held(taken(locks), statement, () -> statements.all(rest));
        return Math.max(1, rest.size());
    }

    /** How many statements behind the taking of locks lead up to where they are given back; 0 where that isn't known. */
    private int length(List<ExpressionTree> lock, List<? extends StatementTree> rest) {
        for (int k = 0; k < rest.size(); k++) {
            StatementTree each = rest.get(k);
            List<? extends StatementTree> before = rest.subList(0, k);
            if (each instanceof TryTree tried && release(lock, tried) >= 0) {
                return before.stream().allMatch(Regions::isHarmless) && !Jumps.mayLeave(before) ? k + 1 : 0;
            } else if (isRelease(each, lock)) {
                return !Jumps.mayLeave(before) ? k + 1 : 0;
            }
        }
        return 0;
    }

    /** What stands between a lock and its {@code try}: declarations and the like. */
    private static boolean isHarmless(StatementTree statement) {
        return statement instanceof VariableTree || statement.getKind() == Tree.Kind.EXPRESSION_STATEMENT
            || statement.getKind() == Tree.Kind.EMPTY_STATEMENT || statement.getKind() == Tree.Kind.ASSERT;
    }

    private boolean isRelease(StatementTree statement, List<ExpressionTree> locks) {
        List<ExpressionTree> given = locking.operands(statement, "unlock");
        return given.size() == locks.size() && locks.stream().allMatch(lock -> given.stream().anyMatch(each ->
            locking.areSame(lock, each)));
    }

    /** The place among the statements of a {@code finally} where the lock is given back, or -1. */
    private int release(List<ExpressionTree> lock, TryTree tried) {
        List<? extends StatementTree> last = tried.getFinallyBlock() == null ? List.of()
            : tried.getFinallyBlock().getStatements();
        for (int k = 0; k < last.size(); k++) {
            if (isRelease(last.get(k), lock)) {
                return k;
            }
        }
        return -1;
    }

    /** The statements while the lock is held; the last one gives it back. */
    private void inside(List<ExpressionTree> lock, List<? extends StatementTree> held) {
        statements.all(held.subList(0, held.size() - 1));
        if (held.get(held.size() - 1) instanceof TryTree tried) {
            inside(lock, tried);
        }
    }

    private void inside(List<ExpressionTree> lock, TryTree tried) {
        tried.getResources().stream().filter(StatementTree.class::isInstance)
            .forEach(each -> statements.one((StatementTree) each));
        statements.all(tried.getBlock().getStatements());
        tried.getResources().forEach(each -> new Iteration(services, body).close(each));
        statements.catches(tried);
        statements.all(tried.getFinallyBlock().getStatements().subList(0, release(lock, tried)));
    }

    /** What a {@code finally} does when the lock is given back. */
    private void behind(List<ExpressionTree> lock, StatementTree last) {
        if (last instanceof TryTree tried && release(lock, tried) >= 0) {
            List<? extends StatementTree> all = tried.getFinallyBlock().getStatements();
            statements.all(all.subList(release(lock, tried) + 1, all.size()));
        }
    }

    /** A {@code try} that begins with taking the lock that its {@code finally} gives back, which does nothing else. */
    boolean lockedWithin(TryTree tree) {
        List<? extends StatementTree> all = tree.getBlock().getStatements();
        List<ExpressionTree> lock = all.isEmpty() ? List.of() : locking.operands(all.get(0), TAKES);
        if (lock.isEmpty() || release(lock, tree) != 0 || tree.getFinallyBlock().getStatements().size() != 1) {
            return false;
        }
        held(taken(lock), all.get(0), () -> statements.all(all.subList(1, all.size())));
        return true;
    }

    /** The lock that the condition of an {@code if} tries to take, where it is nothing else; or null. */
    ExpressionTree tried(IfTree tree) {
        ExpressionTree condition = Uses.bare(tree.getCondition());
        if (condition instanceof UnaryTree not && not.getKind() == Tree.Kind.LOGICAL_COMPLEMENT) {
            condition = Uses.bare(not.getExpression());
        }
        return locking.operand(condition, "tryLock");
    }

    /** An {@code if (lock.tryLock())}: the region where it is taken, a step where it isn't. Whether it was written. */
    boolean attempt(IfTree tree, ExpressionTree tried, List<? extends StatementTree> rest) {
        List<ExpressionTree> lock = List.of(tried);
        boolean negated = Uses.bare(tree.getCondition()) instanceof UnaryTree;
        boolean refusedEnds = negated && Jumps.ends(tree.getThenStatement());
        List<? extends StatementTree> taken = negated ? rest : statements(tree.getThenStatement());
        int length = length(lock, taken);
        if (length == 0 || negated && (!refusedEnds || tree.getElseStatement() != null)) {
            return false;
        }
        List<Locking.Lock> held = taken(lock);
        Part got = body.collect(() -> {
            held(held, tree, () -> inside(lock, taken.subList(0, length)));
            behind(lock, taken.get(length - 1));
            statements.all(taken.subList(length, taken.size()));
        });
        Part missed = body.collect(() -> {
            body.emit(services.step("Lock.tryLock", false, tried));
            statements.one(negated ? tree.getThenStatement() : tree.getElseStatement());
        });
        body.emit(new Part.Either(got, missed));
        if (!negated) {
            statements.all(rest);
        }
        return true;
    }

    private static List<? extends StatementTree> statements(StatementTree statement) {
        return statement instanceof BlockTree block ? block.getStatements() : List.of(statement);
    }
}
