package atomic.java.ownership;

import atomic.java.attribution.Attribution;
import atomic.java.program.JavaMethod;
import atomic.java.program.Program;
import com.sun.source.tree.LambdaExpressionTree;
import com.sun.source.tree.MemberSelectTree;
import com.sun.source.tree.MethodInvocationTree;
import com.sun.source.tree.MethodTree;
import com.sun.source.tree.ReturnTree;
import com.sun.source.tree.Tree;
import java.util.List;
import javax.lang.model.element.VariableElement;

/**
 * Functions whose results a method gives its caller by way of a helper: {@code return locked(map::keySet)}, where
 * {@code locked} takes a lock, and gives back what its function gives.
 */
public final class GivenBack {
    private static final int DEEPEST = 4;

    private final Program program;
    private final Attribution attribution;
    private final Uses uses;

    public GivenBack(Program program, Uses uses) {
        this.program = program;
        this.uses = uses;
        attribution = program.attribution();
    }

    /** Whether what a function gives goes to the caller of the method that it stands in, and nowhere else. */
    public boolean isGiven(Tree function) {
        if (!(attribution.parent(function) instanceof MethodInvocationTree call)) {
            return false;
        }
        int at = call.getArguments().indexOf(function);
        JavaMethod helper = program.method(attribution.element(call));
        return at >= 0 && helper != null && givesBack(helper, at, DEEPEST) && isGivenOn(call);
    }

    /** Whether what an expression gives is what a method, or a function whose result is given back, gives. */
    private boolean isGivenOn(Tree tree) {
        Tree parent = attribution.parent(tree);
        boolean last = parent instanceof ReturnTree && !(program.around(tree) instanceof LambdaExpressionTree);
        return last || parent instanceof LambdaExpressionTree lambda && lambda.getBody() == tree && isGiven(lambda);
    }

    /** Whether a helper only calls the function that it is given, or has one call it, and gives back at once what that gives. */
    private boolean givesBack(JavaMethod helper, int at, int deepest) {
        List<? extends VariableElement> parameters = helper.symbol().getParameters();
        return deepest > 0 && !helper.symbol().isVarArgs() && at < parameters.size() && !uses.of(parameters.get(at)).isEmpty()
            && uses.of(parameters.get(at)).stream().allMatch(use -> isCalledAndGivenBack(use, deepest));
    }

    private boolean isCalledAndGivenBack(Tree use, int deepest) {
        Tree parent = attribution.parent(use);
        Tree call = parent instanceof MemberSelectTree ? attribution.parent(parent) : parent;
        if (!(call instanceof MethodInvocationTree made) || !(attribution.parent(call) instanceof ReturnTree)
                || !(program.around(call) instanceof MethodTree)) {
            return false;
        }
        int at = made.getArguments().indexOf(use);
        JavaMethod next = program.method(attribution.element(made));
        return parent == made.getMethodSelect() || at >= 0 && next != null && givesBack(next, at, deepest - 1);
    }
}
