package atomic.java.translation;

import atomic.java.ownership.Ownership;
import atomic.java.ownership.Uses;
import atomic.java.skeleton.Method;
import atomic.java.skeleton.Part;
import com.sun.source.tree.ExpressionTree;
import com.sun.source.tree.MethodInvocationTree;
import com.sun.source.tree.NewClassTree;
import com.sun.source.tree.Tree;
import com.sun.source.util.TreeScanner;
import java.util.LinkedHashMap;
import java.util.List;
import java.util.Map;
import java.util.Set;
import javax.lang.model.element.ElementKind;
import javax.lang.model.element.VariableElement;
import javax.lang.model.type.DeclaredType;
import javax.lang.model.type.TypeMirror;
import javax.lang.model.type.WildcardType;

/**
 * Calls that run code of which nothing is at hand, by the type that it has. Where a class at hand, or a function at hand with
 * any step, may be of that type, the call may run it. A library makes functions of others: {@code first.andThen(second)}.
 */
final class UnknownCode {
    private static final Set<String> TASKS = Set.of("java.lang.Runnable", "java.util.concurrent.Callable");

    private final Services services;
    private final Map<Method, TypeMirror> asked = new LinkedHashMap<>();
    private final Map<Tree, Method> standing = new LinkedHashMap<>();

    UnknownCode(Services services) {
        this.services = services;
    }

    /** A call runs code of this type. */
    void asks(Method call, TypeMirror type) {
        asked.put(call, type);
    }

    /** A function at hand may run at any time. */
    void stands(Tree function, Method method) {
        standing.put(function, method);
    }

    /** Whether such a call is given a collection or an array that isn't its caller's own: then it may look at it later. */
    boolean handsOut(List<? extends ExpressionTree> arguments) {
        return arguments.stream().map(Uses::bare).anyMatch(each -> services.attribution().type(each) != null
            && services.program().library().hasContents(services.attribution().type(each)) && !isOwn(each) || leaves(each));
    }

    /** Whether what a field holds gets out in an expression, such as the making of an object that keeps it. */
    private boolean leaves(ExpressionTree tree) {
        boolean[] found = new boolean[1];
        new TreeScanner<Void, Void>() {
            @Override
            public Void scan(Tree each, Void nothing) {
                found[0] |= each instanceof ExpressionTree && services.attribution().element(each) instanceof VariableElement field
                    && field.getKind().isField() && services.ownership().exits(field).contains(each);
                return found[0] ? null : super.scan(each, nothing);
            }
        }.scan(tree, null);
        return found[0];
    }

    /** Whether an object is a new one, one that never changes, or what the method was given. */
    private boolean isOwn(ExpressionTree tree) {
        return services.attribution().element(tree) instanceof VariableElement variable
            && variable.getKind() == ElementKind.PARAMETER || Ownership.isNew(services.ownership().fresh(tree))
            || services.immutable(tree) != null;
    }

    /** Whether a function of this type is given collections or arrays, or gives them. */
    boolean takesContents(TypeMirror function) {
        return function instanceof DeclaredType declared && declared.getTypeArguments().stream().map(each ->
            each instanceof WildcardType any ? any.getSuperBound() != null ? any.getSuperBound() : any.getExtendsBound() : each)
            .anyMatch(each -> each != null && services.program().library().hasContents(each));
    }

    /** Where all methods are written: which calls surely run none of these sources. */
    void settle() {
        asked.forEach((call, type) -> call.brought(isBrought(type)));
    }

    private boolean isBrought(TypeMirror type) {
        boolean own = services.program().find(type) != null;
        return type instanceof DeclaredType declared && (own || !services.program().overriding().isAtHand(declared.asElement()))
            && standing.entrySet().stream().noneMatch(each -> hasStep(each.getValue().body()) && mayBe(each.getKey(), type));
    }

    private static boolean hasStep(Part part) {
        return part instanceof Part.Access || part instanceof Part.Call || part instanceof Part.Region
            || part.parts().stream().anyMatch(UnknownCode::hasStep);
    }

    private boolean mayBe(Tree function, TypeMirror wanted) {
        TypeMirror type = services.attribution().types().erasure(services.attribution().type(function));
        TypeMirror erased = services.attribution().types().erasure(wanted);
        return isBelow(type, erased) || isTask(type) && isTask(erased) || isMadeInto(function, erased);
    }

    private boolean isBelow(TypeMirror type, TypeMirror wanted) {
        return services.attribution().types().isSubtype(services.attribution().types().erasure(type), wanted);
    }

    private static boolean isTask(TypeMirror type) {
        return TASKS.contains(type.toString());
    }

    /** Whether a library makes another function of one, of a wanted type. */
    private boolean isMadeInto(Tree function, TypeMirror wanted) {
        Tree around = services.attribution().parent(function);
        while (around instanceof ExpressionTree) {
            boolean calls = around instanceof MethodInvocationTree || around instanceof NewClassTree;
            if (calls && services.attribution().type(around) != null && isBelow(services.attribution().type(around), wanted)) {
                return true;
            }
            around = services.attribution().parent(around);
        }
        return false;
    }
}
