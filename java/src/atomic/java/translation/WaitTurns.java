package atomic.java.translation;

import atomic.java.library.Choice;
import atomic.java.ownership.Uses;
import com.sun.source.tree.ArrayAccessTree;
import com.sun.source.tree.AssignmentTree;
import com.sun.source.tree.CatchTree;
import com.sun.source.tree.ClassTree;
import com.sun.source.tree.CompoundAssignmentTree;
import com.sun.source.tree.DoWhileLoopTree;
import com.sun.source.tree.ExpressionStatementTree;
import com.sun.source.tree.ExpressionTree;
import com.sun.source.tree.ForLoopTree;
import com.sun.source.tree.IdentifierTree;
import com.sun.source.tree.IfTree;
import com.sun.source.tree.LambdaExpressionTree;
import com.sun.source.tree.MemberSelectTree;
import com.sun.source.tree.MethodInvocationTree;
import com.sun.source.tree.MethodTree;
import com.sun.source.tree.ReturnTree;
import com.sun.source.tree.StatementTree;
import com.sun.source.tree.Tree;
import com.sun.source.tree.UnaryTree;
import com.sun.source.tree.VariableTree;
import com.sun.source.tree.WhileLoopTree;
import com.sun.source.util.TreeScanner;
import java.util.ArrayList;
import java.util.HashSet;
import java.util.LinkedHashSet;
import java.util.List;
import java.util.Set;
import java.util.stream.Stream;
import javax.lang.model.element.Element;
import javax.lang.model.element.ElementKind;
import javax.lang.model.element.ExecutableElement;
import javax.lang.model.element.VariableElement;

/**
 * What the turns of a loop around a wait keep for what follows. A turn before the last one must be as if it hadn't been: a
 * local that keeps what was seen before the wait, or counts the turns, tells of what was so before the lock was given back.
 * A condition is evaluated in the last turn too, what comes of the wait or a clock may be anything, and a handler runs only
 * where the thread was interrupted.
 */
record WaitTurns(Services services) {
    private static final Set<String> CLOCKS = Set.of("nanoTime", "currentTimeMillis", "millis", "instant", "now");

    /** The name of a local that a turn keeps something in; null where it keeps nothing. */
    String kept(MethodInvocationTree wait) {
        Tree loop = services.attribution().parent(wait);
        while (loop != null && !isLoop(loop)) {
            if (loop instanceof LambdaExpressionTree || loop instanceof MethodTree || loop instanceof ClassTree) {
                return null;
            }
            loop = services.attribution().parent(loop);
        }
        if (loop == null) {
            return null;
        }
        Tree around = loop;
        Turn turn = new Turn(around, wait);
        turn.scan(body(around), null);
        long behind = services.attribution().end(wait);
        Stream<VariableElement> kept = turn.kept.stream().filter(each -> isUsedBehind(each, around));
        Stream<VariableElement> seen = turn.seen.stream().filter(each -> services.uses().of(each).stream().anyMatch(use ->
            services.attribution().start(use) > behind && !isInOtherBranch(use, wait)));
        return Stream.concat(kept, seen).map(each -> each.getSimpleName().toString()).findFirst().orElse(null);
    }

    private static boolean isLoop(Tree tree) {
        return tree instanceof WhileLoopTree || tree instanceof DoWhileLoopTree || tree instanceof ForLoopTree;
    }

    /** What is done each time round but the condition, which the last turn evaluates too. */
    private static List<Tree> body(Tree loop) {
        List<Tree> all = new ArrayList<>();
        if (loop instanceof WhileLoopTree each) {
            all.add(each.getStatement());
        } else if (loop instanceof DoWhileLoopTree each) {
            all.add(each.getStatement());
        } else if (loop instanceof ForLoopTree each) {
            all.add(each.getStatement());
            all.addAll(each.getUpdate());
        }
        return all;
    }

    /** Whether one of two trees stands in the one branch of an {@code if}, and one in the other. */
    private boolean isInOtherBranch(Tree one, Tree other) {
        Set<Tree> around = new HashSet<>();
        for (Tree each = other; each != null; each = services.attribution().parent(each)) {
            around.add(each);
        }
        Tree below = one;
        for (Tree each = services.attribution().parent(one); each != null; each = services.attribution().parent(each)) {
            if (around.contains(each)) {
                Tree inner = below;
                return each instanceof IfTree branch && (branch.getElseStatement() == inner
                    && around.contains(branch.getThenStatement()) || branch.getThenStatement() == inner
                    && branch.getElseStatement() != null && around.contains(branch.getElseStatement()));
            }
            below = each;
        }
        return false;
    }

    /** Whether a local is read behind the loop, or given back from within it. */
    private boolean isUsedBehind(VariableElement local, Tree loop) {
        return services.uses().of(local).stream().anyMatch(use -> {
            Tree each = services.attribution().parent(use);
            boolean target = each instanceof AssignmentTree assignment && assignment.getVariable() == use;
            boolean given = false;
            while (each != null && each != loop) {
                given |= each instanceof ReturnTree;
                each = services.attribution().parent(each);
            }
            boolean before = services.attribution().start(use) < services.attribution().start(loop);
            return !target && (given || each == null && !before);
        });
    }

    /** Looks through a turn for what it assigns. */
    private final class Turn extends TreeScanner<Void, Void> {
        private final Tree loop;
        private final MethodInvocationTree wait;
        private final Set<Element> own = new HashSet<>();
        private final Set<VariableElement> kept = new LinkedHashSet<>();
        private final Set<VariableElement> seen = new LinkedHashSet<>();

        Turn(Tree loop, MethodInvocationTree wait) {
            this.loop = loop;
            this.wait = wait;
        }

        @Override
        public Void visitVariable(VariableTree tree, Void nothing) {
            Element symbol = services.attribution().element(tree);
            own.add(symbol);
            if (symbol instanceof VariableElement local && tree.getInitializer() != null && !isAnything(tree.getInitializer())
                    && services.attribution().start(tree) < services.attribution().start(wait)) {
                seen.add(local);
            }
            return super.visitVariable(tree, nothing);
        }

        @Override
        public Void visitCatch(CatchTree tree, Void nothing) {
            return null;
        }

        @Override
        public Void visitAssignment(AssignmentTree tree, Void nothing) {
            if (!isAnything(tree.getExpression()) && !beginsEachTurn(tree)) {
                keep(tree.getVariable());
            }
            return super.visitAssignment(tree, nothing);
        }

        @Override
        public Void visitCompoundAssignment(CompoundAssignmentTree tree, Void nothing) {
            if (!isAnything(tree.getExpression())) {
                keep(tree.getVariable());
            }
            return super.visitCompoundAssignment(tree, nothing);
        }

        @Override
        public Void visitUnary(UnaryTree tree, Void nothing) {
            switch (tree.getKind()) {
                case PREFIX_INCREMENT, PREFIX_DECREMENT, POSTFIX_INCREMENT, POSTFIX_DECREMENT -> keep(tree.getExpression());
                default -> { }
            }
            return super.visitUnary(tree, nothing);
        }

        /** An array or another object in a local may be given something to keep by a call. */
        @Override
        public Void visitMethodInvocation(MethodInvocationTree call, Void nothing) {
            if (call != wait && !looks(call)) {
                Stream.concat(call.getArguments().stream(), call.getMethodSelect() instanceof MemberSelectTree select
                    ? Stream.of(select.getExpression()) : Stream.empty()).filter(each ->
                        services.families().shape(services.attribution().type(each)) != null).forEach(this::keep);
            }
            return super.visitMethodInvocation(call, nothing);
        }

        private boolean looks(MethodInvocationTree call) {
            if (!(services.attribution().element(call) instanceof ExecutableElement symbol)
                    || services.program().method(symbol) != null) {
                return false;
            }
            Choice choice = services.ownership().escape().choose(call.getMethodSelect(), symbol);
            return !choice.fills() && switch (choice.kind()) {
                case PURE, ASSUMED, READS, VIEW -> true;
                default -> false;
            };
        }

        private void keep(ExpressionTree target) {
            ExpressionTree bare = Uses.bare(target);
            while (bare instanceof ArrayAccessTree || bare instanceof MemberSelectTree) {
                bare = Uses.bare(bare instanceof ArrayAccessTree element ? element.getExpression()
                    : ((MemberSelectTree) bare).getExpression());
            }
            if (bare instanceof IdentifierTree name && services.attribution().element(name)
                    instanceof VariableElement local && local.getKind() != ElementKind.FIELD && !own.contains(local)) {
                kept.add(local);
            }
        }

        /** Whether a value comes of the wait or of a clock, so that it may be anything. */
        private boolean isAnything(ExpressionTree value) {
            boolean[] found = new boolean[1];
            new TreeScanner<Void, Void>() {
                @Override
                public Void visitMethodInvocation(MethodInvocationTree call, Void nothing) {
                    Element symbol = services.attribution().element(call);
                    found[0] |= call == wait || symbol != null && CLOCKS.contains(symbol.getSimpleName().toString())
                        && services.program().method(symbol) == null;
                    return super.visitMethodInvocation(call, nothing);
                }
            }.scan(value, null);
            return found[0];
        }

        /** Whether an assignment stands at the beginning of an endless loop's turn, so that the last turn assigns it again. */
        private boolean beginsEachTurn(AssignmentTree assignment) {
            StatementTree turn = loop instanceof WhileLoopTree each && Retries.isTrue(each.getCondition()) ? each.getStatement()
                : loop instanceof ForLoopTree each && Retries.isTrue(each.getCondition()) ? each.getStatement() : null;
            for (StatementTree each : turn == null ? List.<StatementTree>of() : Tests.statements(turn)) {
                if (each instanceof ExpressionStatementTree statement && statement.getExpression() == assignment) {
                    return true;
                } else if (!(each instanceof ExpressionStatementTree) && !(each instanceof VariableTree)) {
                    return false;
                }
            }
            return false;
        }
    }
}
