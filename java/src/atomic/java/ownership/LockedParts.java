package atomic.java.ownership;

import atomic.java.attribution.Attribution;
import atomic.java.program.JavaMethod;
import atomic.java.program.Program;
import com.sun.source.tree.BlockTree;
import com.sun.source.tree.ClassTree;
import com.sun.source.tree.ExpressionTree;
import com.sun.source.tree.IdentifierTree;
import com.sun.source.tree.MethodInvocationTree;
import com.sun.source.tree.MethodTree;
import com.sun.source.tree.SynchronizedTree;
import com.sun.source.tree.Tree;
import com.sun.source.tree.TryTree;
import java.util.HashSet;
import java.util.List;
import java.util.Set;
import javax.lang.model.element.Modifier;
import javax.lang.model.element.VariableElement;

/** Parts of the sources in which a lock is held, as they are written: blocks, methods, and {@code try} that gives it back. */
final class LockedParts {
    private final Program program;
    private final Attribution attribution;
    private final Sites sites;

    LockedParts(Program program, Sites sites) {
        this.program = program;
        this.sites = sites;
        attribution = program.attribution();
    }

    /** The innermost such part around a tree, or null. */
    Tree around(Tree tree) {
        Tree each = attribution.parent(tree);
        while (each != null && !(each instanceof ClassTree)) {
            if (lock(each) != null) {
                return each;
            }
            each = each instanceof MethodTree || each.getKind() == Tree.Kind.LAMBDA_EXPRESSION ? null : attribution.parent(each);
        }
        return null;
    }

    /** The name of the lock that is held in a part: that of a final field, or {@code this}; else null. */
    private String lock(Tree part) {
        if (part instanceof MethodTree method) {
            Set<Modifier> flags = method.getModifiers().getFlags();
            return flags.contains(Modifier.SYNCHRONIZED) && !flags.contains(Modifier.STATIC) ? "this" : null;
        } else if (part instanceof SynchronizedTree region) {
            ExpressionTree lock = Uses.bare(region.getExpression());
            return Uses.isName(lock, "this") ? "this" : isFinal(lock) ? name(lock.toString()) : null;
        }
        BlockTree last = part instanceof TryTree tried ? tried.getFinallyBlock() : null;
        return last == null ? null : last.getStatements().stream().map(Object::toString).filter(each -> each.endsWith(".unlock();"))
            .map(each -> name(each.substring(0, each.length() - ".unlock();".length()))).findFirst().orElse(null);
    }

    private boolean isFinal(Tree lock) {
        return attribution.element(lock) instanceof VariableElement field && field.getKind().isField()
            && field.getModifiers().contains(Modifier.FINAL) && !field.getModifiers().contains(Modifier.STATIC);
    }

    private static String name(String lock) {
        return lock.startsWith("this.") ? lock.substring("this.".length()) : lock;
    }

    /** Whether the lock of a region is held at a tree of the same class, in each call of its method that leads there. */
    boolean isLocked(Tree tree, Tree region) {
        return isLocked(tree, region, new HashSet<>());
    }

    private boolean isLocked(Tree tree, Tree region, Set<JavaMethod> seen) {
        for (Tree each = around(tree); each != null; each = each instanceof MethodTree ? null : around(each)) {
            if (lock(each).equals(lock(region)) && home(each) == home(region)) {
                return true;
            }
        }
        Tree around = program.around(tree);
        JavaMethod method = around instanceof MethodTree ? program.method(attribution.element(around)) : null;
        List<Tree> calls = method == null || !method.isPrivate() || sites.isReferenced(method.symbol()) ? List.of()
            : sites.of(method.symbol());
        return !calls.isEmpty() && home(method.tree()) == home(region)
            && (!seen.add(method) || calls.stream().allMatch(each -> each instanceof MethodInvocationTree call
                && call.getMethodSelect() instanceof IdentifierTree && isLocked(each, region, seen)));
    }

    private Tree home(Tree tree) {
        Tree each = tree;
        while (each != null && !(each instanceof ClassTree)) {
            each = attribution.parent(each);
        }
        return each;
    }
}
