package atomic.java.translation;

import atomic.java.library.Choice;
import atomic.java.ownership.Uses;
import atomic.java.program.Touch;
import atomic.java.skeleton.Part;
import atomic.java.skeleton.Place;
import com.sun.source.tree.BlockTree;
import com.sun.source.tree.DoWhileLoopTree;
import com.sun.source.tree.ExpressionTree;
import com.sun.source.tree.ForLoopTree;
import com.sun.source.tree.IfTree;
import com.sun.source.tree.LiteralTree;
import com.sun.source.tree.MethodInvocationTree;
import com.sun.source.tree.StatementTree;
import com.sun.source.tree.Tree;
import com.sun.source.tree.UnaryTree;
import com.sun.source.tree.WhileLoopTree;
import java.util.ArrayList;
import java.util.List;
import java.util.stream.Stream;
import javax.lang.model.element.Element;

/**
 * Loops that try again until nobody else has changed a variable in between, such as
 * {@code do { old = v.get(); next = old + 1; } while (!v.compareAndSet(old, next));}. A turn that fails only looked, nothing
 * of it is kept (see {@link Attempt}), and another one follows. In the turn that succeeds the variable still has the value
 * that was looked at, so the look may as well have been in the same moment: the whole loop is one step. A turn that leaves
 * the loop without an attempt is the look alone.
 */
final class Retries {

    /** A loop's parts: what each turn does, the attempt at its end, and what follows where that succeeds. */
    private record Turn(List<StatementTree> before, ExpressionTree attempt, StatementTree success,
        List<StatementTree> after) { }

    private final Services services;
    private final Body body;
    private final Statements statements;

    Retries(Services services, Body body, Statements statements) {
        this.services = services;
        this.body = body;
        this.statements = statements;
    }

    /** Writes the loop as one step, where it is such a one; whether it was written. */
    boolean write(StatementTree loop) {
        Turn turn = turn(loop);
        Attempt attempt = turn == null ? null : Attempt.of(turn.attempt(), turn.before(), services);
        if (attempt == null || Jumps.mayLeave(turn.after()) || !attempt.forgets(turn.before(), turn.after())) {
            return false;
        }
        List<Part> steps = new Steps(services).of(body.collect(() -> {
            statements.all(turn.before());
            new Expressions(services, body).value(turn.attempt());
            statements.all(turn.after());
        }));
        if (steps.size() != 2 || !isAt(steps.get(0), attempt.look()) || !isAt(steps.get(1), attempt.change())) {
            return false;
        }
        Place look = services.attribution().name(attempt.look());
        Place change = services.attribution().name(attempt.change());
        services.methods().repeats(look, change);
        services.methods().repeats(change, look);
        Touch.Kind kind = asks(loop, turn, attempt) ? Touch.Kind.DRAW : Touch.Kind.RETRY;
        services.program().touches().computeIfPresent(change, (key, touch) -> new Touch(touch.object(), kind, touch.asked()));
        body.emit(Jumps.mayLeave(turn.before()) ? new Part.Either(steps.get(0), steps.get(1)) : steps.get(1));
        if (turn.success() != null) {
            body.emit(new Part.Either(body.collect(() -> statements.one(turn.success())), Part.NOTHING));
        }
        return true;
    }

    /** Whether what the attempt found, or put there, is asked where it succeeds, or behind the loop. */
    private boolean asks(StatementTree loop, Turn turn, Attempt attempt) {
        List<? extends ExpressionTree> arguments = attempt.change().getArguments();
        Element put = services.attribution().element(Uses.bare(arguments.get(arguments.size() - 1)));
        return Stream.of(attempt.old(), put == null ? attempt.old() : put).flatMap(each -> services.uses().of(each).stream())
            .map(services.attribution()::start).anyMatch(use -> use >= services.attribution().end(loop)
                || turn.success() != null && use >= services.attribution().start(turn.success())
                    && use < services.attribution().end(turn.success()));
    }

    private Turn turn(StatementTree loop) {
        if (loop instanceof DoWhileLoopTree tried) {
            ExpressionTree condition = Uses.bare(tried.getCondition());
            return condition.getKind() == Tree.Kind.LOGICAL_COMPLEMENT ? new Turn(statements(tried.getStatement()),
                Uses.bare(((UnaryTree) condition).getExpression()), null, List.of()) : null;
        } else if (loop instanceof WhileLoopTree endless && isTrue(endless.getCondition())) {
            return turn(statements(endless.getStatement()));
        }
        return loop instanceof ForLoopTree endless && isTrue(endless.getCondition()) && endless.getUpdate().isEmpty()
            ? turn(statements(endless.getStatement())) : null;
    }

    /** An endless loop whose turn has the attempt as the condition of an {@code if} that leaves it. */
    private static Turn turn(List<StatementTree> all) {
        for (int k = 0; k < all.size(); k++) {
            if (all.get(k) instanceof IfTree branch && Uses.bare(branch.getCondition()) instanceof MethodInvocationTree call
                    && Attempt.isNamed(call) && Jumps.ends(branch.getThenStatement())
                    && !Jumps.goesOn(branch.getThenStatement())) {
                List<StatementTree> after = new ArrayList<>(all.subList(k + 1, all.size()));
                if (branch.getElseStatement() != null) {
                    after.add(0, branch.getElseStatement());
                }
                return new Turn(all.subList(0, k), call, branch.getThenStatement(), after);
            }
        }
        return null;
    }

    private static List<StatementTree> statements(StatementTree statement) {
        return statement instanceof BlockTree block ? new ArrayList<>(block.getStatements()) : List.of(statement);
    }

    /** Whether a loop only ends where a turn leaves it. */
    static boolean isEndless(StatementTree loop) {
        if (loop instanceof WhileLoopTree turns) {
            return isTrue(turns.getCondition());
        } else if (loop instanceof DoWhileLoopTree turns) {
            return isTrue(turns.getCondition());
        }
        return loop instanceof ForLoopTree turns && isTrue(turns.getCondition());
    }

    /** Whether a condition always holds. */
    static boolean isTrue(ExpressionTree condition) {
        return condition == null || Uses.bare(condition) instanceof LiteralTree literal
            && Boolean.TRUE.equals(literal.getValue());
    }

    private boolean isAt(Part step, MethodInvocationTree call) {
        return step instanceof Part.Call made && services.attribution().name(call).equals(made.place());
    }

    /** Whether a library's call, or making, only computes a value. */
    static boolean onlyComputes(Choice choice) {
        return choice.kind() == Choice.Kind.PURE && !choice.calls() && !choice.fills();
    }
}
