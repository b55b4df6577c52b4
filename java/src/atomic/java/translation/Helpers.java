package atomic.java.translation;

import atomic.java.ownership.Uses;
import atomic.java.program.JavaMethod;
import atomic.java.skeleton.Value;
import com.sun.source.tree.ExpressionTree;
import com.sun.source.tree.IdentifierTree;
import com.sun.source.tree.LambdaExpressionTree;
import com.sun.source.tree.MemberReferenceTree;
import com.sun.source.tree.MemberSelectTree;
import com.sun.source.tree.MethodInvocationTree;
import java.util.HashMap;
import java.util.LinkedHashMap;
import java.util.List;
import java.util.Map;
import javax.lang.model.element.VariableElement;

/**
 * Helpers that run a function, such as one that takes a lock around it: {@code exclusively(() -> count++)}. Where the function
 * is at hand, no other method may run in the helper's place, and the helper does nothing with the function but to call it, or
 * to hand it on to a helper that does so, the helper's body is written where it is called, and the function's where the helper
 * calls it. What else the helper is given stands for its parameters there, so that one may be the lock.
 */
final class Helpers {
    private final Services services;
    private final Body body;
    private final Expressions expressions;

    Helpers(Services services, Body body) {
        this.services = services;
        this.body = body;
        expressions = new Expressions(services, body);
    }

    /** Writes a call of a helper, where it is such a one; whether it was written. */
    boolean write(MethodInvocationTree tree, JavaMethod method) {
        Map<VariableElement, ExpressionTree> functions = functions(tree.getArguments(), method);
        if (functions.isEmpty() || !isHelper(tree, method) || !services.functions().mayBegin(method, functions.values(), body)) {
            return false;
        }
        Map<VariableElement, Value> values = new LinkedHashMap<>();
        for (int k = 0; k < tree.getArguments().size(); k++) {
            VariableElement parameter = method.symbol().getParameters().get(k);
            if (functions.containsKey(parameter)) {
                qualifier(functions.get(parameter), tree.getArguments().get(k));
            } else {
                values.put(parameter, expressions.value(tree.getArguments().get(k)));
            }
        }
        if (method.isStatic()) {
            new Initialisers(services).start(method.owner(), body, tree);
        }
        Map<VariableElement, Value> before = new HashMap<>(body.locals());
        values.forEach((parameter, value) -> new Locals(services, body).declare(services.uses().declaration(parameter), value));
        services.functions().within(method, functions, () ->
            services.methods().synchronizedBody(method, body, new Statements(services, body)));
        body.locals().putAll(before);
        return true;
    }

    /** The functions among the arguments, by the parameters that only call them; none where one can't be written like that. */
    private Map<VariableElement, ExpressionTree> functions(List<? extends ExpressionTree> arguments, JavaMethod method) {
        Map<VariableElement, ExpressionTree> functions = new LinkedHashMap<>();
        for (int k = 0; k < arguments.size() && !method.symbol().isVarArgs(); k++) {
            VariableElement parameter = method.symbol().getParameters().get(k);
            ExpressionTree function = function(arguments.get(k));
            if (function != null && services.ownership().localFunctions().isOnlyCalled(parameter)) {
                functions.put(parameter, function);
            } else if (function != null) {
                return Map.of();
            }
        }
        return functions;
    }

    /** What stands before the name of a method is looked at where that is given, and not where it is called. */
    private void qualifier(ExpressionTree function, ExpressionTree argument) {
        if (function == Uses.bare(argument) && function instanceof MemberReferenceTree reference
                && services.attribution().element(Uses.bare(reference.getQualifierExpression())) instanceof VariableElement) {
            expressions.value(reference.getQualifierExpression());
        }
    }

    /** Whether it is surely this method that runs, on this very object, which others may know already, or on none. */
    private boolean isHelper(MethodInvocationTree tree, JavaMethod method) {
        boolean own = tree.getMethodSelect() instanceof IdentifierTree
            || tree.getMethodSelect() instanceof MemberSelectTree select && Uses.isName(select.getExpression(), "this");
        boolean here = method.isStatic() || own && (method.owner() == body.self()
            || !method.isPrivate() && services.families().isBelow(body.self(), method.owner()));
        return here && services.ownership().localFunctions().isFixed(method) && !body.isFresh();
    }

    private ExpressionTree function(ExpressionTree argument) {
        ExpressionTree bare = Uses.bare(argument);
        return bare instanceof LambdaExpressionTree || bare instanceof MemberReferenceTree ? bare
            : services.functions().named(bare);
    }
}
