package atomic.java.ownership;

import atomic.java.attribution.Attribution;
import atomic.java.library.Choice;
import atomic.java.program.JavaMethod;
import atomic.java.program.Program;
import com.sun.source.tree.ExpressionTree;
import com.sun.source.tree.IdentifierTree;
import com.sun.source.tree.LambdaExpressionTree;
import com.sun.source.tree.MemberReferenceTree;
import com.sun.source.tree.MemberSelectTree;
import com.sun.source.tree.MethodInvocationTree;
import com.sun.source.tree.NewClassTree;
import com.sun.source.tree.Tree;
import java.util.Set;
import javax.lang.model.element.Element;
import javax.lang.model.element.ElementKind;
import javax.lang.model.element.ExecutableElement;
import javax.lang.model.element.Modifier;
import javax.lang.model.element.TypeElement;
import javax.lang.model.element.VariableElement;
import javax.lang.model.type.DeclaredType;

/**
 * What libraries may do with a container's nodes. A call may be given one where it only looks, or puts it into what says by
 * its type that it holds nodes: a list of the container, an {@code Optional}, a stream. The functions that it gives nodes to
 * have to be at hand, and what it gives has to say that it may lead to nodes.
 */
final class NodeCalls {
    private static final Set<Choice.Kind> KNOWN = Set.of(Choice.Kind.PURE, Choice.Kind.ASSUMED, Choice.Kind.READS,
        Choice.Kind.WRITES, Choice.Kind.VIEW, Choice.Kind.PIPE, Choice.Kind.RUN);

    private final Program program;
    private final Attribution attribution;
    private final Ownership ownership;
    private final NodeTypes types;

    NodeCalls(Program program, Ownership ownership, NodeTypes types) {
        this.program = program;
        this.ownership = ownership;
        this.types = types;
        attribution = program.attribution();
    }

    /** Whether a library's call keeps nodes within the container. */
    boolean isHarmless(MethodInvocationTree call) {
        ExpressionTree holder = call.getMethodSelect() instanceof MemberSelectTree select ? select.getExpression() : null;
        boolean nodes = holder != null && types.isNodes(holder);
        for (ExpressionTree argument : call.getArguments()) {
            boolean lambda = Uses.bare(argument) instanceof LambdaExpressionTree;
            if (!lambda && !isFunction(argument) && types.isNodes(argument)) {
                nodes = true;
                if (!isKept(call)) {
                    return false;
                }
            }
        }
        boolean functions = nodes || call.getArguments().stream().anyMatch(types::isNodes);
        if (functions && !call.getArguments().stream().allMatch(each -> !isFunction(each) || isAtHand(each))) {
            return false;
        }
        return !nodes || types.fillsNone(call.getArguments())
            && (types.isNodes(call) || types.isValue(attribution.type(call)));
    }

    /** Whether the making of a library's object keeps nodes within the container: in what says that it holds them. */
    boolean isHarmless(NewClassTree made) {
        return made.getClassBody() == null && types.isNodes(made)
            && program.library().choose(attribution.type(made), "new").kind() == Choice.Kind.PURE
            && made.getArguments().stream().allMatch(each -> !isFunction(each) || isAtHand(each));
    }

    /** Whether a function may give a node: to a library's call of which it is known what it does, and which says so by its type. */
    boolean mayGive(ExpressionTree function) {
        if (!(attribution.parent(function) instanceof MethodInvocationTree call)
                || !(attribution.element(call) instanceof ExecutableElement symbol) || program.method(symbol) != null) {
            return false;
        }
        Choice choice = ownership.escape().choose(call.getMethodSelect(), symbol);
        boolean known = KNOWN.contains(choice.kind()) && !choice.keeps();
        return isOnOwn(call) || known && (types.isNodes(call) || types.isValue(attribution.type(call)));
    }

    /** Whether an argument is an object with a function, which the callee then gives nodes. */
    private boolean isFunction(ExpressionTree tree) {
        return attribution.type(tree) instanceof DeclaredType declared && (declared.asElement().getAnnotationMirrors()
            .stream().anyMatch(each -> each.getAnnotationType().toString().equals("java.lang.FunctionalInterface"))
            || ((TypeElement) declared.asElement()).getQualifiedName().contentEquals("java.util.stream.Collector"));
    }

    /** Whether it is known what a function does: a lambda, a method, or what a library makes of such. */
    private boolean isAtHand(ExpressionTree tree) {
        ExpressionTree function = Uses.bare(tree);
        if (function instanceof MemberReferenceTree reference) {
            return program.method(attribution.element(reference)) != null || isKept(reference);
        } else if (function instanceof MethodInvocationTree call && attribution.element(call)
                instanceof ExecutableElement symbol && program.method(symbol) == null) {
            Choice choice = ownership.escape().choose(call.getMethodSelect(), symbol);
            boolean chained = call.getMethodSelect() instanceof MemberSelectTree select
                && !symbol.getModifiers().contains(Modifier.STATIC) && isFunction(select.getExpression());
            boolean before = symbol.getModifiers().contains(Modifier.STATIC)
                || chained && isAtHand(((MemberSelectTree) call.getMethodSelect()).getExpression());
            return before && (choice.kind() == Choice.Kind.PURE || choice.kind() == Choice.Kind.ASSUMED)
                && call.getArguments().stream().allMatch(each -> !isFunction(each) || isAtHand(each));
        }
        return function instanceof LambdaExpressionTree || attribution.element(function) instanceof VariableElement field
            && field.getKind() == ElementKind.FIELD && ownership.comparators().isFollowed(field);
    }

    /** Whether a library's method that is named keeps a node in what says that it holds nodes. */
    private boolean isKept(MemberReferenceTree reference) {
        if (!(attribution.element(reference) instanceof ExecutableElement symbol)) {
            return false;
        } else if (symbol.getKind() == ElementKind.CONSTRUCTOR) {
            return program.library().choose(symbol.getEnclosingElement().asType(), "new").kind() == Choice.Kind.PURE;
        }
        Element qualifier = attribution.element(Uses.bare(reference.getQualifierExpression()));
        boolean bound = qualifier instanceof VariableElement;
        Choice choice = program.library().choose(bound ? attribution.type(reference.getQualifierExpression())
            : symbol.getEnclosingElement().asType(), atomic.java.library.Library.key(symbol));
        // An entry is a part of the map that gives it: what a look at it gives has to say by its type that it is a node.
        boolean entry = choice.kind() == Choice.Kind.READS
            && symbol.getEnclosingElement().toString().equals("java.util.Map.Entry");
        boolean looks = entry || choice.kind() == Choice.Kind.PURE && !choice.keeps() && !choice.fills();
        return bound ? types.isNodes(reference.getQualifierExpression())
            && (choice.kind() == Choice.Kind.READS || choice.kind() == Choice.Kind.WRITES) : looks;
    }

    /** A library's method may have a node where it puts it into what says that it holds nodes, or only looks. */
    private boolean isKept(MethodInvocationTree call) {
        if (!(attribution.element(call) instanceof ExecutableElement symbol)) {
            return false;
        }
        Choice choice = ownership.escape().choose(call.getMethodSelect(), symbol);
        boolean looks = (choice.kind() == Choice.Kind.PURE || choice.kind() == Choice.Kind.ASSUMED) && !choice.keeps()
            && !(choice.fills() && call.getArguments().stream().anyMatch(types::mayBeFilled));
        boolean held = call.getMethodSelect() instanceof MemberSelectTree select && types.isNodes(select.getExpression())
            && (KNOWN.contains(choice.kind()) && !choice.keeps()
                || ownership.localFunctions().named(select.getExpression()) != null);
        return looks || held || isOnOwn(call);
    }

    /** Whether a method is called on a collection of the container that doesn't get out. */
    private boolean isOnOwn(MethodInvocationTree tree) {
        Element field = tree.getMethodSelect() instanceof MemberSelectTree select
            ? attribution.element(select.getExpression()) : null;
        return field instanceof VariableElement variable && field.getKind() == ElementKind.FIELD
            && ownership.owns(variable);
    }

    /** Whether a method that a name stands for is one of this container, or takes and gives no nodes. */
    boolean isOwn(MemberReferenceTree reference, JavaMethod method) {
        ExpressionTree qualifier = Uses.bare(reference.getQualifierExpression());
        boolean self = qualifier instanceof IdentifierTree name && name.getName().contentEquals("this")
            || qualifier instanceof MemberSelectTree select && select.getIdentifier().contentEquals("this");
        return self || !types.inSignature(method.symbol());
    }

    /** The innermost tree of a kind around a tree, or null. */
    <T extends Tree> T around(Tree tree, Class<T> wanted) {
        Tree each = attribution.parent(tree);
        while (each != null && !wanted.isInstance(each)) {
            each = attribution.parent(each);
        }
        return wanted.cast(each);
    }
}
