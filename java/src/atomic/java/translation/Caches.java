package atomic.java.translation;

import atomic.java.ownership.Uses;
import com.sun.source.tree.CompoundAssignmentTree;
import com.sun.source.tree.EnhancedForLoopTree;
import com.sun.source.tree.ExpressionTree;
import com.sun.source.tree.IdentifierTree;
import com.sun.source.tree.LambdaExpressionTree;
import com.sun.source.tree.LiteralTree;
import com.sun.source.tree.MemberReferenceTree;
import com.sun.source.tree.MemberSelectTree;
import com.sun.source.tree.MethodInvocationTree;
import com.sun.source.tree.NewClassTree;
import com.sun.source.tree.Tree;
import com.sun.source.tree.VariableTree;
import com.sun.source.util.TreeScanner;
import java.util.HashSet;
import java.util.List;
import java.util.Set;
import javax.lang.model.element.Element;
import javax.lang.model.element.ElementKind;
import javax.lang.model.element.ExecutableElement;
import javax.lang.model.element.VariableElement;

/**
 * Fields that keep what is computed from final fields alone, such as {@code hash} of a text that never changes: whoever finds
 * none computes the same. So nobody can tell whether two threads did. A method may still tell whether it was kept already: so
 * each look and each change counts as a step, and only where what is certain counts they don't.
 */
record Caches(Services services) {

    /** Whether a field is such a one, of the class's own. */
    boolean keeps(VariableElement field) {
        return services.facts().of(field, "a cache", this::isKept);
    }

    private boolean isKept(VariableElement field) {
        if (!services.stable().isHidden(field)) {
            return false;
        }
        List<Uses.Assignment> all = services.uses().assignments(field).stream()
            .filter(each -> !(each.tree() instanceof VariableTree)).toList();
        return all.size() == 1 && all.get(0).value() != null && isMore(all.get(0).value())
            && computes(all.get(0).value(), field, new HashSet<>());
    }

    /** Whether an expression, or what a local is given besides, is more than a name or a value that is written down. */
    private boolean isMore(ExpressionTree written) {
        ExpressionTree tree = Uses.bare(written);
        boolean plain = tree instanceof LiteralTree || tree instanceof IdentifierTree || tree instanceof MemberSelectTree;
        return !plain || services.attribution().element(tree) instanceof VariableElement local && !local.getKind().isField()
            && services.uses().assignments(local).stream().anyMatch(each -> each.value() != null
                && !(Uses.bare(each.value()) instanceof IdentifierTree) && isMore(each.value()));
    }

    /** Whether an expression has the same value each time, where a local may have what {@code field} keeps. */
    private boolean computes(ExpressionTree tree, VariableElement field, Set<Element> seen) {
        boolean[] holds = {true};
        new TreeScanner<Void, Void>() {
            @Override
            public Void visitIdentifier(IdentifierTree name, Void nothing) {
                if (services.attribution().element(name) instanceof VariableElement variable) {
                    holds[0] &= variable.getKind().isField() ? services.fields().isSettled(variable)
                        : isComputed(variable, field, seen);
                }
                return null;
            }

            @Override
            public Void visitMethodInvocation(MethodInvocationTree call, Void nothing) {
                boolean own = call.getMethodSelect() instanceof IdentifierTree;
                holds[0] &= services.attribution().element(call) instanceof ExecutableElement symbol
                    && (services.computing().only(call) || isSameEachTime(symbol));
                return own ? scan(call.getArguments(), nothing) : super.visitMethodInvocation(call, nothing);
            }

            @Override
            public Void scan(Tree each, Void nothing) {
                holds[0] &= !(each instanceof NewClassTree) && !(each instanceof LambdaExpressionTree)
                    && !(each instanceof MemberReferenceTree);
                return holds[0] ? super.scan(each, nothing) : null;
            }
        }.scan(tree, null);
        return holds[0];
    }

    /** Whether a call tells what nobody changes while a program runs, but for a test: a property of the system, an enum's values. */
    private static boolean isSameEachTime(ExecutableElement symbol) {
        String name = symbol.getSimpleName().toString();
        boolean values = symbol.getEnclosingElement().getKind() == ElementKind.ENUM && name.equals("values")
            && symbol.getParameters().isEmpty();
        return values || symbol.getEnclosingElement().toString().equals("java.lang.System")
            && (name.equals("getProperty") || name.equals("getenv") || name.equals("lineSeparator"));
    }

    /** Whether all that a local is ever given is computed so. */
    private boolean isComputed(VariableElement local, VariableElement field, Set<Element> seen) {
        if (!seen.add(local)) {
            return true;
        }
        VariableTree declared = services.uses().declaration(local);
        if (declared != null && services.attribution().parent(declared) instanceof EnhancedForLoopTree loop) {
            return computes(loop.getExpression(), field, seen);
        }
        List<Uses.Assignment> all = services.uses().assignments(local);
        return !all.isEmpty() && all.stream().allMatch(each -> each.value() != null
            ? services.attribution().element(Uses.bare(each.value())) == field || computes(each.value(), field, seen)
            : !(each.tree() instanceof CompoundAssignmentTree more) || computes(more.getExpression(), field, seen));
    }
}
