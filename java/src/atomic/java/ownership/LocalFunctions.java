package atomic.java.ownership;

import atomic.java.attribution.Attribution;
import atomic.java.program.JavaMethod;
import atomic.java.program.Program;
import com.sun.source.tree.ExpressionTree;
import com.sun.source.tree.LambdaExpressionTree;
import com.sun.source.tree.MemberReferenceTree;
import com.sun.source.tree.MemberSelectTree;
import com.sun.source.tree.MethodInvocationTree;
import com.sun.source.tree.MethodTree;
import com.sun.source.tree.Tree;
import com.sun.source.tree.VariableTree;
import java.util.HashMap;
import java.util.HashSet;
import java.util.Map;
import java.util.Optional;
import java.util.Set;
import javax.lang.model.element.Element;
import javax.lang.model.element.ElementKind;
import javax.lang.model.element.ExecutableElement;
import javax.lang.model.element.Modifier;
import javax.lang.model.element.TypeElement;
import javax.lang.model.element.VariableElement;
import javax.lang.model.type.DeclaredType;

/**
 * Functions that are only called where they stand: a local keeps the lambda, nothing else is done with it than to call it, or
 * to give it to a call that calls it at once, a library's or that of a helper at hand, and all of that in the method that it
 * stands in. Such a function does its steps
 * where it is called, and holds what is held there; it runs in no other thread and at no other time.
 */
public final class LocalFunctions {
    private static final Set<String> PLAIN = Set.of("java.lang.Runnable", "java.util.concurrent.Callable");

    private final Program program;
    private final Attribution attribution;
    private final Uses uses;
    private final Escape escape;
    private final Map<Element, Optional<ExpressionTree>> known = new HashMap<>();
    private final Map<VariableElement, Boolean> onlyCalled = new HashMap<>();
    private final Set<Tree> asked = new HashSet<>();

    LocalFunctions(Program program, Uses uses, Escape escape) {
        this.program = program;
        this.uses = uses;
        this.escape = escape;
        attribution = program.attribution();
    }

    /** The function that an expression names, where it is only called; else null. */
    public ExpressionTree named(ExpressionTree tree) {
        Element symbol = attribution.element(Uses.bare(tree));
        return symbol instanceof VariableElement local && symbol.getKind() == ElementKind.LOCAL_VARIABLE
            ? known.computeIfAbsent(local, key -> Optional.ofNullable(find(local))).orElse(null) : null;
    }

    /** Whether a lambda, or the name of a method, stands for a local's value and is only called. */
    public boolean isOnlyCalled(Tree function) {
        Tree parent = attribution.parent(function);
        while (parent instanceof com.sun.source.tree.ParenthesizedTree) {
            parent = attribution.parent(parent);
        }
        return parent instanceof VariableTree variable && attribution.element(variable) instanceof VariableElement local
            && local.getKind() == ElementKind.LOCAL_VARIABLE
            && known.computeIfAbsent(local, key -> Optional.ofNullable(find(local))).orElse(null) == function;
    }

    /** Whether a method does nothing with the function in a parameter but to call it; not where it may get that back itself. */
    public boolean isOnlyCalled(VariableElement parameter) {
        Boolean found = onlyCalled.putIfAbsent(parameter, false);
        if (found != null) {
            return found;
        }
        VariableTree declaration = uses.declaration(parameter);
        boolean only = declaration != null && uses.isSettled(parameter) && isPlain(parameter)
            && uses.of(parameter).stream().allMatch(use -> isCall(use) && isWithin(use, declaration));
        onlyCalled.put(parameter, only);
        return only;
    }

    private ExpressionTree find(VariableElement local) {
        VariableTree declaration = uses.declaration(local);
        ExpressionTree value = declaration == null || declaration.getInitializer() == null ? null
            : Uses.bare(declaration.getInitializer());
        boolean function = value instanceof LambdaExpressionTree || value instanceof MemberReferenceTree;
        if (!function || !uses.isSettled(local) || !isPlain(local) || !isInMethod(declaration)) {
            return null;
        }
        return uses.of(local).stream().allMatch(use -> isCall(use) && isWithin(use, declaration)) ? value : null;
    }

    /** Whether an interface says what the function is: one of a library, or one of the sources with this one method. */
    private boolean isPlain(VariableElement local) {
        return local.asType() instanceof DeclaredType type && type.asElement() instanceof TypeElement named
            && (named.getQualifiedName().toString().startsWith("java.util.function.")
                || PLAIN.contains(named.getQualifiedName().toString()) || program.find(named) != null
                && named.getInterfaces().isEmpty() && program.find(named).methods().size() == 1);
    }

    /** Whether it is surely this method that runs where it is called: no method at hand has its place. */
    public boolean isFixed(JavaMethod method) {
        boolean fixed = !method.isVirtual() || method.symbol().getModifiers().contains(Modifier.FINAL)
            || method.owner().symbol().getModifiers().contains(Modifier.FINAL) || !program.options().strict();
        return fixed && !method.isConstructor() && method.tree().getBody() != null && !method.owner().isInterface()
            && program.overriding().of(method).stream().noneMatch(JavaMethod::isVirtual);
    }

    /** Whether code stands in a method: where an object is made, what it is known by changes from one line to the next. */
    private boolean isInMethod(Tree tree) {
        Tree around = program.around(tree);
        while (around instanceof LambdaExpressionTree lambda && escape.isCalledAtOnce(lambda)) {
            around = program.around(around);
        }
        JavaMethod method = around instanceof MethodTree ? program.method(attribution.element(around)) : null;
        return method != null && !method.isConstructor() && !method.readsNewObject();
    }

    /** Whether a use calls the function, or gives it to a call that does so at once. */
    private boolean isCall(Tree use) {
        Tree parent = attribution.parent(use);
        return parent instanceof MemberSelectTree select && attribution.parent(select) instanceof MethodInvocationTree call
            && call.getMethodSelect() == select && attribution.element(call) instanceof ExecutableElement symbol
            && symbol.getModifiers().contains(Modifier.ABSTRACT) || escape.isCalledAtOnce(use) || isHandedOn(use);
    }

    /** Whether a function is given to a method at hand, in whose place no other may run, and which only calls it. */
    boolean isHandedOn(Tree use) {
        int at = attribution.parent(use) instanceof MethodInvocationTree call ? call.getArguments().indexOf(use) : -1;
        JavaMethod method = at < 0 ? null : program.method(attribution.element(attribution.parent(use)));
        if (method == null || method.symbol().isVarArgs() || !isFixed(method) || !asked.add(use)) {
            return false;
        }
        boolean called = isOnlyCalled(method.symbol().getParameters().get(at));
        asked.remove(use);
        return called;
    }

    /** Whether a use stands in the same method, and in no function that may run later. */
    private boolean isWithin(Tree use, Tree declaration) {
        Tree home = program.around(declaration);
        Tree at = program.around(use);
        while (at instanceof LambdaExpressionTree lambda && at != home
                && (escape.isCalledAtOnce(lambda) || isHandedOn(lambda))) {
            at = program.around(at);
        }
        return at == home;
    }
}
