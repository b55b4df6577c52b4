package atomic.java.translation;

import atomic.java.ownership.Uses;
import atomic.java.skeleton.Part;
import atomic.java.skeleton.Value;
import com.sun.source.tree.AssertTree;
import com.sun.source.tree.BlockTree;
import com.sun.source.tree.CatchTree;
import com.sun.source.tree.DoWhileLoopTree;
import com.sun.source.tree.EnhancedForLoopTree;
import com.sun.source.tree.ExpressionStatementTree;
import com.sun.source.tree.ExpressionTree;
import com.sun.source.tree.ForLoopTree;
import com.sun.source.tree.IfTree;
import com.sun.source.tree.LabeledStatementTree;
import com.sun.source.tree.ReturnTree;
import com.sun.source.tree.StatementTree;
import com.sun.source.tree.SwitchTree;
import com.sun.source.tree.SynchronizedTree;
import com.sun.source.tree.ThrowTree;
import com.sun.source.tree.Tree;
import com.sun.source.tree.TryTree;
import com.sun.source.tree.VariableTree;
import com.sun.source.tree.WhileLoopTree;
import com.sun.source.tree.YieldTree;
import com.sun.source.util.SimpleTreeVisitor;
import java.util.ArrayList;
import java.util.List;
import java.util.RandomAccess;
import java.util.Set;
import javax.lang.model.element.VariableElement;

/**
 * Writes the steps of statements. A jump is left out: what it skips is then done too, and a path that does more is at least
 * as great. Where a branch can't go on, what follows is written into the other one, so that the two aren't one path.
 */
final class Statements extends SimpleTreeVisitor<Void, Void> {

    /** How deeply what follows a branch is written into it. */
    private static final int DEEPEST = 16;

    private final Services services;
    private final Body body;
    private final Expressions expressions;
    private final Regions regions;

    Statements(Services services, Body body) {
        this.services = services;
        this.body = body;
        expressions = new Expressions(services, body);
        regions = new Regions(services, body, this);
    }

    /**
     * All statements of a block, in order. What is known of fields at its end is only known within it. javac's own lists are
     * walked over for each part of them.
     */
    void all(List<? extends StatementTree> statements) {
        Set<VariableElement> stable = body.stable();
        inOrder(statements instanceof RandomAccess ? statements : List.copyOf(statements));
        body.stable(stable);
    }

    private void inOrder(List<? extends StatementTree> statements) {
        for (int k = 0; k < statements.size(); k++) {
            StatementTree statement = statements.get(k);
            List<? extends StatementTree> rest = statements.subList(k + 1, statements.size());
            int asked = new SecondLooks(services, regions).first(statements.subList(k, statements.size()));
            if (asked > 0 && services.program().sure()) {
                k += asked - 1;
                continue;
            }
            if (body.depth() <= DEEPEST && new FoundLooks(services, body, this).write(statements.subList(k, statements.size()))) {
                return;
            }
            int looked = body.depth() > DEEPEST ? 0
                : new Rechecks(services, body, this, regions).write(statements.subList(k, statements.size()));
            int locked = looked > 0 ? looked - 1 : regions.region(statement, rest);
            if (looked > 0 || locked > 0) {
                k += locked;
            } else if (checked(statement, rest) > 0 && services.program().sure()) {
                k += checked(statement, rest);
            } else if (statement instanceof IfTree branch && branches(branch, rest)) {
                return;
            } else {
                one(statement);
            }
        }
    }

    /** How many statements behind one look without a lock, and are checked afterwards: where that fails, others look again. */
    private int checked(StatementTree statement, List<? extends StatementTree> rest) {
        int length = Stamps.looks(statement, services.uses()) ? rest.size() - Stamps.behind(rest, services.uses()).size() : 0;
        if (length > 0) {
            services.hint(statement, "second look: what is looked at here is checked afterwards; it counts as steps all the same");
        }
        return length;
    }

    /** One statement. */
    void one(StatementTree statement) {
        if (statement != null) {
            visit(statement, null);
        }
    }

    /** What an expression does. */
    void value(ExpressionTree expression) {
        expressions.value(expression);
    }

    private Part part(StatementTree statement) {
        return body.collect(() -> one(statement));
    }

    /** A branch. One that leaves a loop is taken out of its turn where it can be done behind that. */
    private Part branch(StatementTree statement) {
        Part part = part(statement);
        body.leavings().take(statement, part);
        return part;
    }

    /** An {@code if} of which one branch can't go on: the rest belongs to the other one. */
    private boolean branches(IfTree tree, List<? extends StatementTree> rest) {
        ExpressionTree tried = regions.tried(tree);
        boolean thenEnds = Jumps.ends(tree.getThenStatement());
        boolean elseEnds = tree.getElseStatement() != null && Jumps.ends(tree.getElseStatement());
        if (tried != null) {
            return regions.attempt(tree, tried, rest);
        }
        if (!thenEnds && !elseEnds || rest.isEmpty() || body.depth() > DEEPEST) {
            return false;
        }
        expressions.value(tree.getCondition());
        Part left = body.collect(() -> {
            body.emit(branch(tree.getThenStatement()));
            all(thenEnds ? List.of() : rest);
        });
        Part right = body.collect(() -> {
            body.emit(branch(tree.getElseStatement()));
            all(elseEnds || !thenEnds ? List.of() : rest);
        });
        body.emit(new Part.Either(left, right));
        return true;
    }

    @Override
    public Void visitIf(IfTree tree, Void nothing) {
        ExpressionTree tried = regions.tried(tree);
        if (tried == null || !regions.attempt(tree, tried, List.of())) {
            if (new IdleWrites(services, body, this).write(tree)) {
                return null;
            }
            if (!new Questions(services, regions).isAskedAgain(tree) || !services.program().sure()) {
                expressions.value(tree.getCondition());
            }
            Part left = branch(tree.getThenStatement());
            body.emit(new Part.Either(left, branch(tree.getElseStatement())));
        }
        return null;
    }

    @Override
    public Void visitBlock(BlockTree tree, Void nothing) {
        all(tree.getStatements());
        return null;
    }

    @Override
    public Void visitExpressionStatement(ExpressionStatementTree tree, Void nothing) {
        expressions.value(tree.getExpression());
        return null;
    }

    @Override
    public Void visitVariable(VariableTree tree, Void nothing) {
        Value first = tree.getInitializer() == null ? null : expressions.value(tree.getInitializer());
        new Locals(services, body).declare(tree, first);
        return null;
    }

    @Override
    public Void visitReturn(ReturnTree tree, Void nothing) {
        services.liveObjects().give(expressions.value(tree.getExpression()), tree);
        return null;
    }

    @Override
    public Void visitThrow(ThrowTree tree, Void nothing) {
        expressions.value(tree.getExpression());
        return null;
    }

    @Override
    public Void visitYield(YieldTree tree, Void nothing) {
        expressions.value(tree.getValue());
        return null;
    }

    @Override
    public Void visitAssert(AssertTree tree, Void nothing) {
        Part checked = body.collect(() -> {
            expressions.value(tree.getCondition());
            expressions.value(tree.getDetail());
        });
        body.emit(new Part.Either(checked, Part.NOTHING));
        return null;
    }

    @Override
    public Void visitLabeledStatement(LabeledStatementTree tree, Void nothing) {
        one(tree.getStatement());
        return null;
    }

    @Override
    public Void visitWhileLoop(WhileLoopTree tree, Void nothing) {
        StatementTree last = new SecondLooks(services, regions).optimistic(tree);
        if (last != null && services.program().sure()) {
            one(last);
        } else if (!new Retries(services, body, this).write(tree)) {
            repeat(tree, () -> {
                expressions.value(tree.getCondition());
                one(tree.getStatement());
            });
        }
        return null;
    }

    @Override
    public Void visitDoWhileLoop(DoWhileLoopTree tree, Void nothing) {
        if (!new Retries(services, body, this).write(tree)) {
            repeat(tree, () -> {
                one(tree.getStatement());
                expressions.value(tree.getCondition());
            });
        }
        return null;
    }

    @Override
    public Void visitForLoop(ForLoopTree tree, Void nothing) {
        all(tree.getInitializer());
        if (!new Retries(services, body, this).write(tree)) {
            repeat(tree, () -> {
                expressions.value(tree.getCondition());
                one(tree.getStatement());
                all(tree.getUpdate());
            });
        }
        return null;
    }

    @Override
    public Void visitEnhancedForLoop(EnhancedForLoopTree tree, Void nothing) {
        Value source = expressions.value(tree.getExpression());
        repeat(tree, () -> {
            Iteration iteration = new Iteration(services, body);
            iteration.next(tree, source);
            new Locals(services, body).declare(tree.getVariable(), iteration.element(tree.getVariable(), source));
            one(tree.getStatement());
        });
        return null;
    }

    /** A loop, unless its body is left at its end the first time; and then a branch that leaves it. */
    private void repeat(StatementTree tree, Runnable turn) {
        StatementTree inner = tree instanceof WhileLoopTree loop ? loop.getStatement() : null;
        boolean once = inner != null && Jumps.leaves(inner);
        if (Retries.isEndless(tree)) {
            services.program().endless().add(services.attribution().place(tree));
        }
        List<Part> last = new ArrayList<>();
        Part whole = body.collect(() -> body.leavings().within(tree, last, turn));
        if (waits(whole)) {
            services.program().endless().add(services.attribution().place(tree));
        }
        Part part = Leavings.without(whole, last);
        List<Part> behind = Leavings.behind(part, last);
        body.emit(once ? new Part.Either(part, Part.NOTHING)
            : new Part.Repeat(part, services.attribution().place(tree)));
        if (!behind.isEmpty()) {
            body.emit(new Part.Either(Dispatch.either(behind), Part.NOTHING));
        }
    }

    /** Whether a turn gives its lock back, and not one of a loop within it: what came before may have been an attempt. */
    private static boolean waits(Part part) {
        return part instanceof Part.Wait || !(part instanceof Part.Repeat) && part.parts().stream().anyMatch(Statements::waits);
    }

    @Override
    public Void visitSwitch(SwitchTree tree, Void nothing) {
        expressions.value(tree.getExpression());
        new Switches(services, body).cases(tree.getCases());
        return null;
    }

    @Override
    public Void visitSynchronized(SynchronizedTree tree, Void nothing) {
        if (new LockPairs(services, body, this).write(tree)) {
            return null;
        }
        ExpressionTree operand = Uses.bare(tree.getExpression());
        Locking.Lock lock = new Locking(services, body).monitor(operand);
        Value object = operand.getKind() == Tree.Kind.IDENTIFIER ? new Locking(services, body).object(operand) : null;
        Part inside = body.holding(lock.path(), () -> one(tree.getBlock()));
        body.emit(object instanceof Value.Fresh ? inside
            : new Part.Region(lock.path(), Part.Mode.EXCLUSIVE, inside, services.attribution().place(tree)));
        return null;
    }

    @Override
    public Void visitTry(TryTree tree, Void nothing) {
        tree.getResources().forEach(this::resource);
        boolean locked = regions.lockedWithin(tree);
        if (!locked) {
            all(tree.getBlock().getStatements());
        }
        tree.getResources().forEach(each -> new Iteration(services, body).close(each));
        catches(tree);
        if (!locked) {
            one(tree.getFinallyBlock());
        }
        return null;
    }

    private void resource(Tree resource) {
        if (resource instanceof StatementTree statement) {
            one(statement);
        } else if (resource instanceof ExpressionTree expression) {
            expressions.value(expression);
        }
    }

    /** The handlers of a {@code try}: one of them, or none. */
    void catches(TryTree tree) {
        List<Part> parts = tree.getCatches().stream().map(this::handler).toList();
        Part all = Dispatch.either(parts);
        if (!all.isNothing()) {
            body.emit(new Part.Either(all, Part.NOTHING));
        }
    }

    private Part handler(CatchTree each) {
        return body.collect(() -> {
            new Locals(services, body).declare(each.getParameter(), Value.OPAQUE);
            one(each.getBlock());
        });
    }
}
