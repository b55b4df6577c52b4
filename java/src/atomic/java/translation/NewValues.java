package atomic.java.translation;

import atomic.java.ownership.Uses;
import atomic.java.program.JavaMethod;
import com.sun.source.tree.BinaryTree;
import com.sun.source.tree.ClassTree;
import com.sun.source.tree.ExpressionTree;
import com.sun.source.tree.LambdaExpressionTree;
import com.sun.source.tree.LiteralTree;
import com.sun.source.tree.MethodInvocationTree;
import com.sun.source.tree.NewArrayTree;
import com.sun.source.tree.NewClassTree;
import com.sun.source.tree.ReturnTree;
import com.sun.source.tree.Tree;
import com.sun.source.util.TreeScanner;
import java.util.ArrayList;
import java.util.List;
import javax.lang.model.element.ExecutableElement;

/** Values that are never null: what is made, written down, or given by a call that makes something. */
record NewValues(Services services) {
    private static final int DEEPEST = 4;

    /** Whether an expression's value is never null. */
    boolean isMade(ExpressionTree value) {
        return isMade(value, 0);
    }

    private boolean isMade(ExpressionTree written, int depth) {
        ExpressionTree value = written == null ? null : Uses.bare(written);
        if (value instanceof MethodInvocationTree call) {
            return services.attribution().element(call) instanceof ExecutableElement symbol && isMade(call, symbol, depth);
        }
        return value instanceof NewClassTree || value instanceof NewArrayTree || value instanceof LambdaExpressionTree
            || value instanceof BinaryTree
            || value instanceof LiteralTree literal && literal.getKind() != Tree.Kind.NULL_LITERAL;
    }

    private boolean isMade(MethodInvocationTree call, ExecutableElement symbol, int depth) {
        JavaMethod method = services.program().method(symbol);
        if (method != null) {
            return !method.isVirtual() && method.tree().getBody() != null && depth < DEEPEST
                && returned(method).stream().allMatch(each -> isMade(each, depth + 1));
        }
        String home = symbol.getEnclosingElement().toString();
        return home.equals("java.lang.String") && symbol.getReturnType().toString().equals(home)
            || home.equals("java.util.Collections") && symbol.getSimpleName().toString().startsWith("unmodifiable")
            || services.ownership().escape().choose(call.getMethodSelect(), symbol).makes() != null;
    }

    private static List<ExpressionTree> returned(JavaMethod method) {
        List<ExpressionTree> all = new ArrayList<>();
        new TreeScanner<Void, Void>() {
            @Override
            public Void scan(Tree tree, Void nothing) {
                return tree instanceof ClassTree || tree instanceof LambdaExpressionTree ? null : super.scan(tree, nothing);
            }

            @Override
            public Void visitReturn(ReturnTree tree, Void nothing) {
                all.add(tree.getExpression());
                return null;
            }
        }.scan(method.tree().getBody(), null);
        return all;
    }
}
