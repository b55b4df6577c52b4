package atomic.java.translation;

import atomic.java.ownership.Uses;
import com.sun.source.tree.ExpressionTree;
import com.sun.source.tree.MemberSelectTree;
import com.sun.source.tree.MethodInvocationTree;
import com.sun.source.tree.NewClassTree;
import com.sun.source.tree.Tree;
import javax.lang.model.element.Element;
import javax.lang.model.element.VariableElement;

/** Looks at a value of each thread's own: the first one runs the function that gives it. */
final class ThreadLocals {
    private final Services services;
    private final Body body;

    ThreadLocals(Services services, Body body) {
        this.services = services;
        this.body = body;
    }

    /** Writes the function that a {@code get} may run, where it is at hand; whether it was. */
    boolean first(Tree at) {
        if (!(at instanceof MethodInvocationTree call) || !(call.getMethodSelect() instanceof MemberSelectTree select)
                || !select.getIdentifier().contentEquals("get")
                || !(services.attribution().element(Uses.bare(select.getExpression())) instanceof VariableElement local)) {
            return false;
        }
        ExpressionTree value = services.uses().assignments(local).stream().map(Uses.Assignment::value)
            .filter(each -> each != null).findFirst().orElse(null);
        if (value instanceof MethodInvocationTree made && isWithInitial(made)) {
            services.functions().callAll(made.getArguments(), body, at, false);
            return true;
        } else if (value instanceof NewClassTree made && made.getClassBody() != null && isThreadLocal(local)) {
            body.emit(services.step("ThreadLocal.initialValue", true, at));
            return true;
        }
        return false;
    }

    private boolean isWithInitial(MethodInvocationTree made) {
        Element symbol = services.attribution().element(made);
        return symbol != null && symbol.getSimpleName().contentEquals("withInitial")
            && symbol.getEnclosingElement().toString().equals("java.lang.ThreadLocal");
    }

    private static boolean isThreadLocal(VariableElement local) {
        return local.asType().toString().startsWith("java.lang.ThreadLocal");
    }
}
