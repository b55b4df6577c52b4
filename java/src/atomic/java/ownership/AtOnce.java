package atomic.java.ownership;

import atomic.java.attribution.Attribution;
import atomic.java.library.Choice;
import atomic.java.program.Program;
import com.sun.source.tree.LambdaExpressionTree;
import com.sun.source.tree.MemberSelectTree;
import com.sun.source.tree.MethodInvocationTree;
import com.sun.source.tree.Tree;
import java.util.HashMap;
import java.util.Map;
import java.util.Set;
import javax.lang.model.element.ExecutableElement;
import javax.lang.model.type.ArrayType;
import javax.lang.model.type.TypeMirror;

/**
 * Functions that a library's call calls before it returns, and doesn't keep. What is found of a stage of a pipeline is kept,
 * since each stage asks those before and behind it.
 */
final class AtOnce {

    /** What makes other threads run a pipeline. */
    private static final Set<String> PARALLEL = Set.of("parallel", "parallelStream", "parallelSetAll", "parallelPrefix");

    private final Program program;
    private final Attribution attribution;
    private final Escape escape;
    private final Map<Tree, Boolean> called = new HashMap<>();
    private final Map<Tree, Boolean> parallel = new HashMap<>();
    private final Map<Tree, Boolean> ending = new HashMap<>();

    AtOnce(Program program, Escape escape) {
        this.program = program;
        this.escape = escape;
        attribution = program.attribution();
    }

    /** Whether a lambda or a method's name is called by what it is given to, before that returns, and not kept. */
    boolean isCalled(Tree function) {
        Boolean known = called.get(function);
        if (known == null) {
            known = find(function);
            called.put(function, known);
        }
        return known;
    }

    private boolean find(Tree function) {
        Tree parent = attribution.parent(function);
        if (parent instanceof MethodInvocationTree call
                && attribution.element(call) instanceof ExecutableElement symbol && program.method(symbol) == null) {
            Choice choice = escape.choose(call.getMethodSelect(), symbol);
            return isTaken(call, call.getArguments().indexOf(function)) && !isParallel(call)
                && (choice.runsFunctions() || choice.kind() == Choice.Kind.PIPE && endsAtOnce(call));
        }
        return false;
    }

    /** Whether other threads may call the functions of a pipeline, which then hold nothing of what is held here. */
    private boolean isParallel(MethodInvocationTree stage) {
        Boolean known = parallel.get(stage);
        if (known == null) {
            known = stage.getMethodSelect() instanceof MemberSelectTree select
                && (PARALLEL.contains(select.getIdentifier().toString())
                    || select.getExpression() instanceof MethodInvocationTree before && isParallel(before));
            parallel.put(stage, known);
        }
        return known;
    }

    /**
     * Whether a callee takes an argument as more than any object, and so may call it. A list's {@code add} and
     * {@code Thread.holdsLock} don't: what a parameter of any type is given can be kept, and not called.
     */
    boolean isTaken(Tree call, int at) {
        if (!(attribution.element(call) instanceof ExecutableElement symbol) || symbol.getParameters().isEmpty()) {
            return true;
        }
        int last = symbol.getParameters().size() - 1;
        TypeMirror type = symbol.getParameters().get(Math.min(Math.max(at, 0), last)).asType();
        boolean rest = symbol.isVarArgs() && at >= last && type instanceof ArrayType;
        TypeMirror wanted = rest ? ((ArrayType) type).getComponentType() : type;
        return !attribution.types().erasure(wanted).toString().equals("java.lang.Object");
    }

    /** Whether a pipeline is run in the expression that makes it, or within the one whose {@code flatMap} it is made for. */
    private boolean endsAtOnce(MethodInvocationTree stage) {
        Boolean known = ending.get(stage);
        if (known == null) {
            known = findEnd(stage);
            ending.put(stage, known);
        }
        return known;
    }

    private boolean findEnd(MethodInvocationTree stage) {
        Tree select = attribution.parent(stage);
        if (select instanceof LambdaExpressionTree lambda && attribution.parent(lambda) instanceof MethodInvocationTree around
                && attribution.element(around).getSimpleName().toString().startsWith("flatMap")) {
            return isCalled(lambda);
        }
        if (!(select instanceof MemberSelectTree member)
                || !(attribution.parent(select) instanceof MethodInvocationTree next)
                || !(attribution.element(member) instanceof ExecutableElement symbol)) {
            return false;
        }
        Choice choice = escape.choose(member, symbol);
        return !isParallel(next) && (choice.kind() == Choice.Kind.RUN || choice.kind() == Choice.Kind.PIPE && endsAtOnce(next));
    }
}
