package atomic.java.ownership;

import atomic.java.attribution.Attribution;
import atomic.java.program.Families;
import atomic.java.program.Program;
import com.sun.source.tree.AssignmentTree;
import com.sun.source.tree.BlockTree;
import com.sun.source.tree.BreakTree;
import com.sun.source.tree.ContinueTree;
import com.sun.source.tree.ExpressionStatementTree;
import com.sun.source.tree.ExpressionTree;
import com.sun.source.tree.IdentifierTree;
import com.sun.source.tree.MemberSelectTree;
import com.sun.source.tree.MethodInvocationTree;
import com.sun.source.tree.MethodTree;
import com.sun.source.tree.NewClassTree;
import com.sun.source.tree.ReturnTree;
import com.sun.source.tree.StatementTree;
import com.sun.source.tree.ThrowTree;
import com.sun.source.tree.Tree;
import com.sun.source.tree.VariableTree;
import com.sun.source.util.TreeScanner;
import java.util.HashMap;
import java.util.HashSet;
import java.util.List;
import java.util.Map;
import java.util.Set;
import javax.lang.model.element.Element;
import javax.lang.model.element.Modifier;
import javax.lang.model.element.VariableElement;

/**
 * Locals that take what a field holds for good: within one region of a lock the local gets the object, and the field a new
 * one. From then on the method alone has it, as long as each other touch of the field holds that lock:
 * {@code synchronized (this) { old = names; names = new ArrayList<>(); } old.clear();}
 */
public final class Taken {
    private static final long NOT = Long.MAX_VALUE;

    private final Program program;
    private final Attribution attribution;
    private final Ownership ownership;
    private final LockedParts parts;
    private final Map<Element, Long> known = new HashMap<>();
    private final Map<Element, VariableElement> fields = new HashMap<>();
    private final Map<Element, Long> ends = new HashMap<>();
    private final Set<Element> open = new HashSet<>();

    Taken(Program program, Ownership ownership) {
        this.program = program;
        this.ownership = ownership;
        attribution = program.attribution();
        parts = new LockedParts(program, ownership.sites());
    }

    /** Whether a local takes the object of a field. */
    boolean is(Element local) {
        return from(local) != NOT;
    }

    /** The offset from which on the method alone has the object in a local; the greatest number where it doesn't. */
    public long from(Element local) {
        Long before = known.get(local);
        if (before == null) {
            if (!open.add(local)) {
                return NOT;
            }
            before = find(local);
            open.remove(local);
            known.put(local, before);
        }
        return before;
    }

    private long find(Element local) {
        List<Uses.Assignment> all = ownership.uses().assignments(local);
        boolean once = local instanceof VariableElement variable && !variable.getKind().isField() && all.size() == 1
            && all.get(0).value() != null && ownership.uses().isSettled(variable);
        VariableElement field = once ? field(all.get(0).value()) : null;
        if (field == null) {
            return NOT;
        }
        Tree taking = all.get(0).tree() instanceof VariableTree ? all.get(0).tree() : attribution.parent(all.get(0).tree());
        StatementTree replacing = replacing(taking, field);
        Tree region = replacing == null ? null : parts.around(taking);
        boolean alone = region != null && region == parts.around(replacing)
            && (program.sure() || ownership.uses().of(field).stream().allMatch(each -> isLocked(each, region)));
        fields.put(local, field);
        return alone ? attribution.end(replacing) : NOT;
    }

    /** Whether the method alone has the object in such a local at an offset: it hasn't got away from there either. */
    public boolean isAlone(Element local, long offset) {
        return local != null && offset >= from(local) && offset <= ends.computeIfAbsent(local, key ->
            ownership.uses().of(key).stream().filter(each -> attribution.start(each) >= from(key)).mapToLong(each ->
                ownership.escape().earliest(each, ownership.uses().declaration(key))).min().orElse(NOT));
    }

    /** The class of the object that a local takes. */
    String made(Element local) {
        return ownership.made(fields.get(local));
    }

    /** The private field that an expression names without an object, or behind {@code this}. */
    private VariableElement field(ExpressionTree tree) {
        ExpressionTree bare = Uses.bare(tree);
        boolean own = bare instanceof IdentifierTree
            || bare instanceof MemberSelectTree select && Uses.isName(select.getExpression(), "this");
        return own && attribution.element(bare) instanceof VariableElement field && field.getKind().isField()
            && field.getModifiers().contains(Modifier.PRIVATE) && !Families.isStatic(field) ? field : null;
    }

    /** The statement behind another one, in the same block, that puts a new object into a field; nothing is called before. */
    private StatementTree replacing(Tree taking, VariableElement field) {
        List<? extends StatementTree> all = attribution.parent(taking) instanceof BlockTree block ? block.getStatements()
            : List.of();
        for (int k = all.indexOf(taking) + 1; k > 0 && k < all.size(); k++) {
            if (all.get(k) instanceof ExpressionStatementTree one && one.getExpression() instanceof AssignmentTree set
                    && field(set.getVariable()) == field) {
                return ownership.fresh(set.getExpression()) != null ? all.get(k) : null;
            } else if (!isQuiet(all.get(k))) {
                return null;
            }
        }
        return null;
    }

    /** Whether a statement calls nothing, makes nothing and leaves nothing. */
    private static boolean isQuiet(Tree statement) {
        boolean[] quiet = {true};
        new TreeScanner<Void, Void>() {
            @Override
            public Void scan(Tree tree, Void nothing) {
                quiet[0] &= !(tree instanceof MethodInvocationTree || tree instanceof NewClassTree || tree instanceof ReturnTree
                    || tree instanceof ThrowTree || tree instanceof BreakTree || tree instanceof ContinueTree);
                return quiet[0] ? super.scan(tree, nothing) : null;
            }
        }.scan(statement, null);
        return quiet[0];
    }

    /** Whether a use of the field holds the lock of a region, and so does each use of a local that has its object or shows it. */
    private boolean isLocked(Tree use, Tree region) {
        boolean own = use instanceof IdentifierTree
            || use instanceof MemberSelectTree select && Uses.isName(select.getExpression(), "this");
        Tree around = program.around(use);
        boolean begins = around == null || around instanceof MethodTree method && method.getReturnType() == null;
        if (!own || !begins && !parts.isLocked(use, region)) {
            return false;
        }
        Tree each = use;
        Tree parent = attribution.parent(each);
        while (parent instanceof MemberSelectTree || parent instanceof MethodInvocationTree call
                && call.getMethodSelect() == each && program.method(attribution.element(call)) == null) {
            each = parent;
            parent = attribution.parent(each);
        }
        Element local = parent instanceof VariableTree variable ? attribution.element(variable)
            : parent instanceof AssignmentTree set && set.getExpression() == each ? attribution.element(Uses.bare(set.getVariable()))
            : null;
        boolean given = parent instanceof MethodInvocationTree call && program.method(attribution.element(call)) != null
            || parent instanceof NewClassTree;
        return !given && (local == null || open.contains(local) || is(local) || !((VariableElement) local).getKind().isField()
            && ownership.uses().of(local).stream().allMatch(one -> parts.isLocked(one, region)));
    }
}
