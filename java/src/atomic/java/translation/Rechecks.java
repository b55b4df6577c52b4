package atomic.java.translation;

import atomic.java.ownership.Uses;
import atomic.java.skeleton.Part;
import com.sun.source.tree.ConditionalExpressionTree;
import com.sun.source.tree.ExpressionStatementTree;
import com.sun.source.tree.ExpressionTree;
import com.sun.source.tree.IdentifierTree;
import com.sun.source.tree.IfTree;
import com.sun.source.tree.LiteralTree;
import com.sun.source.tree.MemberSelectTree;
import com.sun.source.tree.ReturnTree;
import com.sun.source.tree.StatementTree;
import com.sun.source.tree.Tree;
import com.sun.source.tree.VariableTree;
import com.sun.source.util.TreeScanner;
import java.util.ArrayList;
import java.util.HashSet;
import java.util.List;
import java.util.Set;
import javax.lang.model.element.Modifier;
import javax.lang.model.element.VariableElement;

/**
 * A look without a lock in front of a region that begins with the same look, such as
 * {@code if (v == null) { synchronized (lock) { if (v == null) { v = new V(); } } }}. Where the first look leads to the
 * region, the second one decides alone: nothing of the first is kept, and where the second tells the other way, what
 * follows is what would have followed the first. If the method runs alone from the region's beginning on, both looks
 * see the same. So a path has the first look or the region, and never both. The variable has to be volatile or atomic.
 */
final class Rechecks {
    private final Services services;
    private final Body body;
    private final Statements statements;
    private final Regions regions;

    Rechecks(Services services, Body body, Statements statements, Regions regions) {
        this.services = services;
        this.body = body;
        this.statements = statements;
        this.regions = regions;
    }

    /** The local that keeps what was looked at, or null; what is tested of it; and what comes behind the test. */
    private record First(VariableElement local, Tests.Test test, StatementTree then, int length) { }

    /** Writes the statements that begin with such a look, and says how many; 0 where they don't. */
    int write(List<? extends StatementTree> all) {
        First first = first(all);
        if (first == null) {
            return 0;
        }
        List<? extends StatementTree> rest = all.subList(first.length(), all.size());
        boolean ends = first.then() instanceof ReturnTree;
        List<? extends StatementTree> guarded = ends ? rest : Tests.statements(first.then());
        List<? extends StatementTree> inside = inside(guarded, first.local(), !ends);
        ExpressionTree second = inside == null ? null : ends ? repeated(first, inside) : skipped(first, inside);
        if (second == null) {
            return 0;
        }
        Part looked = body.collect(() -> all.subList(0, first.length()).forEach(each -> look(each, first)));
        if (new Steps(services).of(looked).size() != 1) {
            return 0;
        }
        services.methods().repeats(services.attribution().name(first.test().look()), services.attribution().name(second));
        body.emit(new Part.Either(looked, body.collect(() -> statements.all(guarded))));
        if (!ends && isSetOnce(first, first(inside)) && regions.isFixed(guarded, isStatic(first))) {
            Set<VariableElement> stable = new HashSet<>(body.stable());
            stable.add((VariableElement) first.test().variable());
            body.stable(stable);
        }
        return ends ? all.size() : first.length();
    }

    /** The statements of the region that these begin with, behind names for what keeps its value; else null. */
    private List<? extends StatementTree> inside(List<? extends StatementTree> all, VariableElement local, boolean alone) {
        int at = 0;
        while (at < all.size() && all.get(at) instanceof VariableTree variable && isName(variable.getInitializer(), local)) {
            at++;
        }
        return regions.inside(all.subList(at, all.size()), alone);
    }

    /** Whether there is no value yet, or one that is the same each time and isn't in the local. */
    private boolean isName(ExpressionTree value, VariableElement local) {
        if (value == null || value instanceof LiteralTree) {
            return true;
        }
        boolean own = value instanceof IdentifierTree
            || value instanceof MemberSelectTree select && Uses.isName(select.getExpression(), "this");
        return own && services.attribution().element(value) instanceof VariableElement named && named != local
            && (named.getKind().isField() ? services.program().find(named.getEnclosingElement()) != null
                && services.fields().isSettled(named) : services.uses().isSettled(named));
    }

    private void look(StatementTree statement, First first) {
        if (statement instanceof IfTree branch) {
            new Expressions(services, body).value(branch.getCondition());
            if (first.then() instanceof ReturnTree) {
                statements.one(branch.getThenStatement());
            }
        } else {
            statements.one(statement);
        }
    }

    /** The look that statements begin with, and what is done where it succeeds. */
    private First first(List<? extends StatementTree> all) {
        Tests tests = new Tests(services);
        VariableElement local = all.isEmpty() ? null : tests.assigned(all.get(0));
        int at = local == null ? 0 : 1;
        if (all.size() <= at || !(all.get(at) instanceof IfTree branch) || branch.getElseStatement() != null) {
            return null;
        }
        Tests.Test test = tests.of(branch.getCondition());
        if (test == null || local == null && test.look() == null
                || local != null && (test.local() != local || test.look() != null)) {
            return null;
        }
        Tests.Test whole = local == null ? test : test.at(tests.value(all.get(0)));
        List<? extends StatementTree> then = Tests.statements(branch.getThenStatement());
        StatementTree only = then.size() == 1 ? then.get(0) : branch.getThenStatement();
        VariableElement kept = whole.local();
        boolean returns = only instanceof ReturnTree given && isPlain(given.getExpression(), kept);
        return whole.look() == null || only instanceof ReturnTree && !returns ? null
            : new First(kept, whole, only, at + 1);
    }

    /** Whether a returned expression is nothing, a value that is written down, or what was looked at. */
    private boolean isPlain(ExpressionTree tree, VariableElement kept) {
        return tree == null || tree instanceof LiteralTree
            || kept != null && services.attribution().element(Uses.bare(tree)) == kept;
    }

    /** The second look of a region that does something where it tells the same as the first, and else nothing. */
    private ExpressionTree skipped(First first, List<? extends StatementTree> inside) {
        First second = first(inside);
        boolean same = second != null && second.local() == first.local() && second.length() == inside.size()
            && second.test().isLike(first.test());
        return same ? second.test().look() : null;
    }

    /** The second look of a region that returns the same as the first look where that tells the same. */
    private ExpressionTree repeated(First first, List<? extends StatementTree> inside) {
        ReturnTree wanted = (ReturnTree) first.then();
        Tests tests = new Tests(services);
        First second = first(inside);
        if (second != null && second.local() == first.local() && second.then() instanceof ReturnTree given
                && first.test().implies(second.test()) == Boolean.TRUE && isSame(wanted, given.getExpression())) {
            return second.test().look();
        } else if (first.local() == null && inside.size() == 1 && inside.get(0) instanceof ReturnTree chosen
                && Uses.bare(chosen.getExpression()) instanceof ConditionalExpressionTree choice) {
            Tests.Test test = tests.of(choice.getCondition());
            Boolean holds = test == null || test.look() == null || test.local() != null ? null : first.test().implies(test);
            return holds != null && isSame(wanted, holds ? choice.getTrueExpression() : choice.getFalseExpression())
                ? test.look() : null;
        }
        return filled(first, wanted, inside);
    }

    /** The second look of {@code if (v == null) { v = ..; } return v;} behind {@code x = v; if (x != null) return x;}. */
    private ExpressionTree filled(First first, ReturnTree wanted, List<? extends StatementTree> inside) {
        First second = first(inside);
        if (second == null || second.then() instanceof ReturnTree || inside.size() != second.length() + 1
                || !(inside.get(second.length()) instanceof ReturnTree given) || given.getExpression() == null
                || first.test().implies(second.test()) != Boolean.FALSE || !gives(wanted, first.local())) {
            return null;
        }
        boolean again = second.local() == null && !mentions(inside, first.local())
            && new Tests(services).variable(given.getExpression()) == first.test().variable();
        return again || second.local() == first.local() && gives(given, first.local()) ? second.test().look() : null;
    }

    private boolean gives(ReturnTree returned, VariableElement local) {
        return local != null && returned.getExpression() != null
            && services.attribution().element(Uses.bare(returned.getExpression())) == local;
    }

    private boolean mentions(List<? extends StatementTree> all, VariableElement local) {
        boolean[] found = new boolean[1];
        new TreeScanner<Void, Void>() {
            @Override
            public Void visitIdentifier(IdentifierTree tree, Void nothing) {
                found[0] |= services.attribution().element(tree) == local;
                return null;
            }
        }.scan(all, null);
        return found[0];
    }

    private static boolean isSame(ReturnTree wanted, ExpressionTree given) {
        return wanted.getExpression() == null ? given == null
            : given != null && Uses.bare(wanted.getExpression()).toString().equals(Uses.bare(given).toString());
    }

    /**
     * Whether a field is set once in its life, in this region, where it was null: a private one that is given a new object
     * here and nowhere else. Behind the region, or the look that didn't lead there, its value stays, and the look or the
     * region has told what it is.
     */
    private boolean isSetOnce(First first, First second) {
        if (first.local() != null || !first.test().isNull() || !(first.test().variable() instanceof VariableElement field)
                || !field.getKind().isField() || !field.getModifiers().contains(Modifier.PRIVATE)
                || services.uses().isReflected(field)) {
            return false;
        }
        List<Tree> direct = new ArrayList<>();
        Tests.statements(second.then()).forEach(each ->
            direct.add(each instanceof ExpressionStatementTree statement ? Uses.bare(statement.getExpression()) : each));
        var all = services.uses().assignments(field).stream().filter(each -> !(each.tree() instanceof VariableTree
            && (each.value() == null || each.value().getKind() == Tree.Kind.NULL_LITERAL))).toList();
        return all.size() == 1 && direct.contains(all.get(0).tree()) && all.get(0).value() != null
            && new NewValues(services).isMade(all.get(0).value()) && all.get(0).target() instanceof ExpressionTree target
            && new Tests(services).isOwn(target);
    }

    private static boolean isStatic(First first) {
        return first.test().variable().getModifiers().contains(Modifier.STATIC);
    }
}
