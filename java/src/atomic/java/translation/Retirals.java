package atomic.java.translation;

import atomic.java.ownership.Uses;
import com.sun.source.tree.AssignmentTree;
import com.sun.source.tree.BinaryTree;
import com.sun.source.tree.BlockTree;
import com.sun.source.tree.ConditionalExpressionTree;
import com.sun.source.tree.EnhancedForLoopTree;
import com.sun.source.tree.ExpressionStatementTree;
import com.sun.source.tree.ExpressionTree;
import com.sun.source.tree.IdentifierTree;
import com.sun.source.tree.IfTree;
import com.sun.source.tree.LiteralTree;
import com.sun.source.tree.MemberSelectTree;
import com.sun.source.tree.MethodInvocationTree;
import com.sun.source.tree.NewClassTree;
import com.sun.source.tree.ReturnTree;
import com.sun.source.tree.StatementTree;
import com.sun.source.tree.SynchronizedTree;
import com.sun.source.tree.ThrowTree;
import com.sun.source.tree.Tree;
import com.sun.source.tree.TryTree;
import java.util.List;
import java.util.Set;
import javax.lang.model.element.Element;
import javax.lang.model.element.ElementKind;
import javax.lang.model.element.VariableElement;

/**
 * Objects that are taken out of a concurrent map only where a flag of theirs is set too, in one region of their own lock, and
 * never come back: {@code synchronized (a) { a.closed = true; accounts.remove(id, a); }}. Who looks one up, takes that lock,
 * and finds the flag unset has an object that is still in the map: so the look may as well have been within the region. Who
 * finds it set gives the same as if nothing had been found: so the call may as well have been behind the removal.
 */
record Retirals(Services services) {
    private static final Set<String> COUNTING = Set.of("incrementAndGet", "getAndIncrement", "get");
    private static final Set<String> SHOWING = Set.of("values", "keySet", "entrySet");
    private static final Set<String> LOOKING = Set.of("stream", "size", "isEmpty", "contains", "forEach");

    /** How the objects of a map retire: their flag, and the field that holds their lock, which is empty for their monitor. */
    private record Way(VariableElement flag, String lock) { }

    /** A region of the lock of an object that a local has. */
    private record Region(String local, String lock, BlockTree block) { }

    /** Whether the statements behind a look use what it found in one region of its lock, which first asks the flag. */
    boolean covers(MethodInvocationTree look, VariableElement local, List<? extends StatementTree> all) {
        Way way = way(look);
        if (way == null || all.size() < 3 || !(all.get(1) instanceof IfTree missing) || missing.getElseStatement() != null) {
            return false;
        }
        Region region = region(all.get(2), all.size() > 3 ? all.get(3) : null);
        int behind = region != null && all.get(2) instanceof SynchronizedTree ? 3 : 4;
        return region != null && region.local().equals(local.getSimpleName().toString()) && region.lock().equals(way.lock())
            && all.stream().skip(behind).allMatch(Retirals::isPlain) && !region.block().getStatements().isEmpty()
            && asks(region.block().getStatements().get(0), local, way.flag(), only(missing.getThenStatement()));
    }

    /** Whether a statement only gives a local or a constant. */
    private static boolean isPlain(StatementTree tree) {
        return tree instanceof ReturnTree back && (back.getExpression() instanceof LiteralTree
            || back.getExpression() instanceof IdentifierTree);
    }

    /** Whether a statement leaves where the flag is set, as another one leaves where nothing was found. */
    private boolean asks(StatementTree first, VariableElement local, VariableElement flag, StatementTree missing) {
        if (missing == null) {
            return false;
        } else if (first instanceof IfTree branch) {
            StatementTree leaving = only(branch.getThenStatement());
            return leaving != null && leaving.toString().equals(missing.toString())
                && isAmong(Uses.bare(branch.getCondition()), local, flag);
        }
        return first instanceof ReturnTree back && back.getExpression() != null && missing instanceof ReturnTree none
            && none.getExpression() != null && Uses.bare(back.getExpression()) instanceof ConditionalExpressionTree either
            && isFlag(Uses.bare(either.getCondition()), local, flag)
            && either.getTrueExpression().toString().equals(none.getExpression().toString());
    }

    private boolean isAmong(ExpressionTree condition, VariableElement local, VariableElement flag) {
        return condition instanceof BinaryTree both && both.getKind() == Tree.Kind.CONDITIONAL_OR
            ? isAmong(Uses.bare(both.getLeftOperand()), local, flag) : isFlag(condition, local, flag);
    }

    private boolean isFlag(ExpressionTree tree, VariableElement local, VariableElement flag) {
        return tree instanceof MemberSelectTree select && services.attribution().element(select) == flag
            && services.attribution().element(select.getExpression()) == local;
    }

    /** The one statement of a branch, which returns or throws; else null. */
    private static StatementTree only(StatementTree branch) {
        List<? extends StatementTree> all = Tests.statements(branch);
        return all.size() == 1 && (all.get(0) instanceof ReturnTree || all.get(0) instanceof ThrowTree) ? all.get(0) : null;
    }

    /** The region that a statement is, or begins with the next one. */
    private static Region region(StatementTree first, StatementTree next) {
        if (first instanceof SynchronizedTree region && Uses.bare(region.getExpression()) instanceof IdentifierTree name) {
            return new Region(name.getName().toString(), "", region.getBlock());
        }
        return first instanceof ExpressionStatementTree taking && taking.getExpression() instanceof MethodInvocationTree lock
            && next instanceof TryTree tried && tried.getFinallyBlock() != null && tried.getResources().isEmpty()
            ? region(lock, tried) : null;
    }

    private static Region region(MethodInvocationTree lock, TryTree tried) {
        String taken = lock.getMethodSelect().toString();
        String[] parts = taken.split("\\.");
        boolean given = tried.getFinallyBlock().getStatements().size() == 1 && tried.getFinallyBlock().getStatements().get(0)
            .toString().equals(taken.replaceAll("lock$", "unlock") + "();");
        return given && parts.length == 3 && parts[2].equals("lock") && lock.getArguments().isEmpty()
            ? new Region(parts[0], parts[1], tried.getBlock()) : null;
    }

    private Way way(MethodInvocationTree look) {
        return look.getMethodSelect() instanceof MemberSelectTree select && select.getIdentifier().contentEquals("get")
            && services.attribution().element(Uses.bare(select.getExpression())) instanceof VariableElement map
            && services.stable().isHidden(map) && services.fields().isSettled(map) && StableLooks.isConcurrent(services.ownership().made(map))
            ? find(map) : null;
    }

    private Way find(VariableElement map) {
        Way found = null;
        for (Tree use : services.uses().of(map)) {
            MethodInvocationTree call = call(use);
            Way way = call != null && name(call).equals("remove") ? retires(call) : null;
            boolean same = way != null && (found == null || found.equals(way));
            if (!services.uses().isTarget(use) && !same && (call == null || !keeps(call))) {
                return null;
            }
            found = way == null ? found : way;
        }
        return found;
    }

    /** The call that is made on what a name stands for; null where something else is done with it. */
    private MethodInvocationTree call(Tree use) {
        return services.attribution().parent(use) instanceof MemberSelectTree select
            && services.attribution().parent(select) instanceof MethodInvocationTree call ? call : null;
    }

    private static String name(MethodInvocationTree call) {
        return ((MemberSelectTree) call.getMethodSelect()).getIdentifier().toString();
    }

    /** Whether a call on the map takes nothing out. */
    private boolean keeps(MethodInvocationTree call) {
        return StableLooks.onlyAdds(name(call)) || name(call).equals("put") && isNew(call)
            || SHOWING.contains(name(call)) && isLookedAt(call);
    }

    /** Whether what shows the map is only looked at. */
    private boolean isLookedAt(MethodInvocationTree call) {
        Tree parent = services.attribution().parent(call);
        return parent instanceof EnhancedForLoopTree || parent instanceof NewClassTree
            || parent instanceof MemberSelectTree select && LOOKING.contains(select.getIdentifier().toString());
    }

    /** Whether a new object is put in under a number that is drawn for it alone. */
    private boolean isNew(MethodInvocationTree put) {
        return put.getArguments().size() == 2 && services.attribution().element(Uses.bare(put.getArguments().get(0)))
            instanceof VariableElement key && key.getKind() == ElementKind.LOCAL_VARIABLE && services.uses().isSettled(key)
            && !services.uses().assignments(key).isEmpty() && services.uses().assignments(key).stream().allMatch(each -> each.value() != null && isDrawn(Uses.bare(each.value())));
    }

    private boolean isDrawn(ExpressionTree tree) {
        return tree instanceof MethodInvocationTree draw && draw.getMethodSelect() instanceof MemberSelectTree select
            && Set.of("incrementAndGet", "getAndIncrement").contains(select.getIdentifier().toString())
            && services.attribution().element(Uses.bare(select.getExpression())) instanceof VariableElement counter
            && services.stable().isHidden(counter) && services.fields().isSettled(counter)
            && services.uses().of(counter).stream().allMatch(use -> services.uses().isTarget(use)
                || services.attribution().parent(use) instanceof MemberSelectTree call && COUNTING.contains(call.getIdentifier().toString()));
    }

    /** How an object retires that is taken out here: within a region of its lock that sets its flag; null where it doesn't so. */
    private Way retires(MethodInvocationTree removal) {
        Tree statement = removal;
        while (statement != null && !(services.attribution().parent(statement) instanceof BlockTree)) {
            statement = services.attribution().parent(statement);
        }
        if (statement == null || !(services.attribution().parent(statement) instanceof BlockTree block)) {
            return null;
        }
        Region region = around(block);
        VariableElement object = region == null || removal.getArguments().size() != 2 ? null
            : services.attribution().element(Uses.bare(removal.getArguments().get(1))) instanceof VariableElement local
                && local.getSimpleName().contentEquals(region.local()) && services.uses().isSettled(local) ? local : null;
        return object == null ? null : block.getStatements().stream().map(each -> flag(each, object)).filter(each -> each != null
            && neverGoesBack(each)).findFirst().map(each -> new Way(each, region.lock())).orElse(null);
    }

    /** The region whose block this is. */
    private Region around(BlockTree block) {
        Tree parent = services.attribution().parent(block);
        if (parent instanceof SynchronizedTree region) {
            return region(region, null);
        }
        if (parent instanceof TryTree tried && tried.getBlock() == block
                && services.attribution().parent(tried) instanceof BlockTree outer) {
            int at = outer.getStatements().indexOf(tried);
            return at == 0 ? null : region(outer.getStatements().get(at - 1), tried);
        }
        return null;
    }

    private VariableElement flag(StatementTree statement, VariableElement object) {
        return statement instanceof ExpressionStatementTree one && one.getExpression() instanceof AssignmentTree set
            && isTrue(set.getExpression()) && set.getVariable() instanceof MemberSelectTree select
            && services.attribution().element(select.getExpression()) == object
            && services.attribution().element(select) instanceof VariableElement flag && flag.getKind() == ElementKind.FIELD ? flag : null;
    }

    private boolean neverGoesBack(VariableElement flag) {
        Element home = flag.getEnclosingElement();
        return services.program().find(home) != null && !services.uses().isReflected(flag)
            && services.uses().assignments(flag).stream().allMatch(each -> each.value() != null && isTrue(each.value()));
    }

    private static boolean isTrue(ExpressionTree tree) {
        return Uses.bare(tree) instanceof LiteralTree literal && Boolean.TRUE.equals(literal.getValue());
    }
}
