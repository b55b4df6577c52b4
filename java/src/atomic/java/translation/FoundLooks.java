package atomic.java.translation;

import atomic.java.ownership.Uses;
import atomic.java.program.JavaMethod;
import atomic.java.skeleton.Part;
import atomic.java.skeleton.Place;
import com.sun.source.tree.ConditionalExpressionTree;
import com.sun.source.tree.ExpressionTree;
import com.sun.source.tree.IfTree;
import com.sun.source.tree.MethodInvocationTree;
import com.sun.source.tree.ReturnTree;
import com.sun.source.tree.StatementTree;
import com.sun.source.tree.ThrowTree;
import com.sun.source.tree.VariableTree;
import java.util.List;
import javax.lang.model.element.Modifier;
import javax.lang.model.element.VariableElement;

/**
 * Looks into a map that only grows, of which it is asked at once whether they found anything:
 * {@code V v = map.get(k); if (v == null) { return; } v.change();}. What was found stays so, and the look may as well be made
 * later: it is to what follows what the taking of a lock is to its region. So a path has the look, and what is done where
 * nothing was found, or what follows, as the region of a lock that guards nothing. A method that does the same, and throws
 * where nothing was found, is such a look too.
 */
final class FoundLooks {
    private final Services services;
    private final Body body;
    private final Statements statements;

    FoundLooks(Services services, Body body, Statements statements) {
        this.services = services;
        this.body = body;
        this.statements = statements;
    }

    /** What is done where nothing was found, and where something was. */
    private record Sides(Runnable missing, Runnable found) { }

    /** Writes all of these statements, where they begin with such a look; whether they do. */
    boolean write(List<? extends StatementTree> all) {
        if (services.program().sure() || !(all.get(0) instanceof VariableTree declared) || declared.getInitializer() == null
                || !(Uses.bare(declared.getInitializer()) instanceof MethodInvocationTree look)
                || !(services.attribution().element(declared) instanceof VariableElement local)
                || !services.uses().isSettled(local)) {
            return false;
        }
        Sides sides = services.stable().isOnlyAddedTo(look) || new Retirals(services).covers(look, local, all) ? sides(all, local)
            : isFinder(services.program().method(services.attribution().element(look)))
                ? new Sides(() -> { }, () -> statements.all(all.subList(1, all.size()))) : null;
        if (sides == null) {
            return false;
        }
        Place place = services.attribution().name(look);
        Part before = body.collect(() -> statements.one(declared));
        List<Part> steps = new Steps(services).of(before);
        if (steps.size() == 1 && steps.get(0) instanceof Part.Call call && place.equals(call.place())) {
            Part missing = body.collect(() -> sides.missing().run());
            Part found = body.collect(() -> sides.found().run());
            body.emit(new Part.Either(Part.sequence(List.of(before, missing)),
                new Part.Region(null, Part.Mode.NONE, Part.sequence(List.of(without(before, call), found)), place)));
        } else {
            body.emit(before);
            statements.all(all.subList(1, all.size()));
        }
        return true;
    }

    private static Part without(Part part, Part step) {
        return part == step ? Part.NOTHING : part.map(each -> without(each, step));
    }

    /** What the statements behind a look do where it found nothing and where it found something; null where it isn't asked. */
    private Sides sides(List<? extends StatementTree> all, VariableElement local) {
        if (all.size() < 2) {
            return null;
        }
        List<? extends StatementTree> rest = all.subList(2, all.size());
        if (all.get(1) instanceof ReturnTree given && given.getExpression() != null
                && Uses.bare(given.getExpression()) instanceof ConditionalExpressionTree choice) {
            Boolean missing = isMissing(choice.getCondition(), local);
            return missing == null ? null : new Sides(
                () -> statements.value(missing ? choice.getTrueExpression() : choice.getFalseExpression()),
                () -> statements.value(missing ? choice.getFalseExpression() : choice.getTrueExpression()));
        }
        Boolean missing = all.get(1) instanceof IfTree branch ? isMissing(branch.getCondition(), local) : null;
        if (missing == null) {
            return null;
        }
        IfTree branch = (IfTree) all.get(1);
        StatementTree none = missing ? branch.getThenStatement() : branch.getElseStatement();
        StatementTree some = missing ? branch.getElseStatement() : branch.getThenStatement();
        boolean once = rest.isEmpty() || ends(none) != ends(some);
        return once ? new Sides(() -> side(none, rest), () -> side(some, rest)) : null;
    }

    private static boolean ends(StatementTree branch) {
        return branch != null && Jumps.ends(branch);
    }

    /** One branch, and what follows where that goes on. */
    private void side(StatementTree branch, List<? extends StatementTree> rest) {
        statements.one(branch);
        if (!ends(branch)) {
            statements.all(rest);
        }
    }

    /** Whether a condition holds where a local is null, or where it isn't; null where it asks anything else. */
    private Boolean isMissing(ExpressionTree condition, VariableElement local) {
        Tests.Test test = new Tests(services).of(condition);
        return test == null || test.local() != local || test.look() != null || !test.value().equals("null") ? null
            : Boolean.valueOf(test.isNull());
    }

    /** Whether a method looks into such a map, throws where it found nothing, and gives what it found. */
    private boolean isFinder(JavaMethod method) {
        if (method == null || method.isVirtual() && services.program().overriding().isOverridden(method)
                || method.tree().getBody() == null || method.tree().getBody().getStatements().size() != 3
                || method.symbol().getModifiers().contains(Modifier.SYNCHRONIZED)) {
            return false;
        }
        List<? extends StatementTree> all = method.tree().getBody().getStatements();
        return all.get(0) instanceof VariableTree declared && declared.getInitializer() != null
            && Uses.bare(declared.getInitializer()) instanceof MethodInvocationTree look && services.stable().isOnlyAddedTo(look)
            && services.attribution().element(declared) instanceof VariableElement local && services.uses().isSettled(local)
            && all.get(1) instanceof IfTree branch && Boolean.TRUE.equals(isMissing(branch.getCondition(), local))
            && branch.getElseStatement() == null && throwsAtOnce(branch.getThenStatement())
            && all.get(2) instanceof ReturnTree given && given.getExpression() != null
            && services.attribution().element(Uses.bare(given.getExpression())) == local;
    }

    private static boolean throwsAtOnce(StatementTree statement) {
        List<? extends StatementTree> all = Tests.statements(statement);
        return all.size() == 1 && all.get(0) instanceof ThrowTree;
    }
}
