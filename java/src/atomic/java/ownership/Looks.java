package atomic.java.ownership;

import atomic.java.attribution.Attribution;
import atomic.java.library.Choice;
import atomic.java.program.JavaMethod;
import atomic.java.program.Program;
import com.sun.source.tree.ArrayAccessTree;
import com.sun.source.tree.AssignmentTree;
import com.sun.source.tree.BinaryTree;
import com.sun.source.tree.CompoundAssignmentTree;
import com.sun.source.tree.EnhancedForLoopTree;
import com.sun.source.tree.MemberSelectTree;
import com.sun.source.tree.MethodInvocationTree;
import com.sun.source.tree.Tree;
import com.sun.source.tree.UnaryTree;
import java.util.HashMap;
import java.util.Map;
import javax.lang.model.element.ExecutableElement;
import javax.lang.model.element.VariableElement;
import javax.lang.model.type.TypeKind;

/** Which parameters are arrays that a method only looks at. */
final class Looks {
    private final Program program;
    private final Attribution attribution;
    private final Uses uses;
    private final Escape escape;
    private final Map<VariableElement, Boolean> known = new HashMap<>();

    Looks(Program program, Uses uses, Escape escape) {
        this.program = program;
        this.uses = uses;
        this.escape = escape;
        attribution = program.attribution();
    }

    /** Whether a method only looks at the array in its parameter. */
    boolean only(VariableElement parameter) {
        Boolean before = known.putIfAbsent(parameter, true);
        if (before == null) {
            known.put(parameter, uses.assignments(parameter).isEmpty()
                && uses.of(parameter).stream().allMatch(this::looks));
        }
        return known.get(parameter);
    }

    private boolean looks(Tree use) {
        Tree parent = attribution.parent(use);
        if (parent instanceof ArrayAccessTree element) {
            Tree around = attribution.parent(element);
            boolean writes = around instanceof AssignmentTree assignment && assignment.getVariable() == element
                || around instanceof CompoundAssignmentTree || around instanceof UnaryTree;
            return !writes && attribution.type(element).getKind() != TypeKind.ARRAY;
        } else if (parent instanceof MemberSelectTree select) {
            return select.getIdentifier().contentEquals("length");
        } else if (parent instanceof MethodInvocationTree call) {
            return looks(call, call.getArguments().indexOf(use));
        }
        return parent instanceof EnhancedForLoopTree || parent instanceof BinaryTree;
    }

    private boolean looks(MethodInvocationTree call, int at) {
        if (at < 0 || !(attribution.element(call) instanceof ExecutableElement symbol)) {
            return false;
        }
        JavaMethod method = program.method(symbol);
        if (method != null) {
            return !method.isVirtual() && !symbol.isVarArgs() && only(symbol.getParameters().get(at));
        }
        Choice choice = escape.choose(call.getMethodSelect(), symbol);
        boolean pure = choice.kind() == Choice.Kind.PURE || choice.kind() == Choice.Kind.ASSUMED;
        boolean copies = symbol.getSimpleName().contentEquals("arraycopy") && at == 0;
        return pure && !choice.keeps() && (!choice.fills() || copies);
    }
}
