package atomic.java.translation;

import atomic.java.ownership.Escape;
import atomic.java.ownership.Ownership;
import atomic.java.ownership.Uses;
import atomic.java.program.JavaClass;
import atomic.java.program.JavaMethod;
import atomic.java.skeleton.Method;
import atomic.java.skeleton.Part;
import atomic.java.skeleton.Shape;
import atomic.java.skeleton.Value;
import com.sun.source.tree.ExpressionTree;
import com.sun.source.tree.IdentifierTree;
import com.sun.source.tree.MemberReferenceTree;
import com.sun.source.tree.MemberSelectTree;
import com.sun.source.tree.MethodInvocationTree;
import com.sun.source.tree.NewClassTree;
import com.sun.source.tree.Tree;
import java.util.ArrayList;
import java.util.Comparator;
import java.util.List;
import javax.lang.model.element.Element;
import javax.lang.model.element.ElementKind;
import javax.lang.model.element.ExecutableElement;
import javax.lang.model.element.VariableElement;

/** Calls of methods and constructors. */
final class Calls {
    /** In how many classes of a line below a method's own it may stand by {@code super}. */
    private static final int MOST_HEIRS = 8;

    private final Services services;
    private final Body body;
    private final Expressions expressions;

    Calls(Services services, Body body) {
        this.services = services;
        this.body = body;
        expressions = new Expressions(services, body);
    }

    /** A call; the object that it gives is known by its class alone, or as the library's table says. */
    Value call(MethodInvocationTree tree) {
        Element symbol = services.attribution().element(tree);
        if (!(symbol instanceof ExecutableElement executable)) {
            return unknown(tree);
        } else if (symbol.getKind() == ElementKind.CONSTRUCTOR) {
            return another(tree, executable);
        }
        JavaMethod method = services.program().method(symbol);
        if (method == null) {
            return new LibraryCalls(services, body).call(tree, executable);
        } else if (new Helpers(services, body).write(tree, method) || runs(tree, method)) {
            return Value.OPAQUE;
        }
        Value receiver = method.isStatic() ? qualifier(tree) : receiver(tree, method);
        List<Value> arguments = arguments(method, tree.getArguments());
        invoke(method, receiver, arguments, tree);
        if (method.isAbstract() && !services.program().overriding().isOverridden(method)
                && services.functions().unknownCode().handsOut(tree.getArguments())) {
            body.emit(services.doubt(Method.Doubt.ANY, method.symbol().getSimpleName().toString(), true, body, tree,
                "unknown call: code that isn't at hand is given a collection here, and may look at it later"));
        }
        VariableElement field = services.ownership().holding(symbol);
        return field != null ? new Accesses(services, body).confined(field, services.attribution().start(tree))
            : Ownership.isNew(services.ownership().fresh(tree)) ? new Value.Fresh(null) : Value.OPAQUE;
    }

    /** Writes a function behind an interface of the sources that is only called here; whether it is one. */
    private boolean runs(MethodInvocationTree tree, JavaMethod method) {
        ExpressionTree function = method.isAbstract() && tree.getMethodSelect() instanceof MemberSelectTree select
            ? services.functions().named(select.getExpression()) : null;
        if (function != null) {
            tree.getArguments().forEach(expressions::value);
            services.functions().run(function, body, tree);
        }
        return function != null;
    }

    private Value unknown(MethodInvocationTree tree) {
        tree.getArguments().forEach(expressions::value);
        body.emit(services.doubt(Method.Doubt.ANY, tree.getMethodSelect().toString(), true, body, tree,
            "unknown call: it may do anything"));
        return Value.OPAQUE;
    }

    /** What stands before a static call: the steps of an expression, of which no object is wanted. */
    private Value qualifier(MethodInvocationTree tree) {
        if (tree.getMethodSelect() instanceof MemberSelectTree select
                && services.attribution().element(select.getExpression()) instanceof VariableElement) {
            expressions.value(select.getExpression());
        }
        return null;
    }

    private Value receiver(MethodInvocationTree tree, JavaMethod method) {
        if (tree.getMethodSelect() instanceof MemberSelectTree select) {
            return expressions.value(select.getExpression());
        }
        Value own = body.object(method.owner(), services.attribution().start(tree));
        return own == null ? new Value.Opaque(method.owner().shape()) : own;
    }

    /** Whether a name is one of {@code super}, or of {@code A.super}. */
    static boolean isSuper(ExpressionTree select) {
        if (!(select instanceof MemberSelectTree member)) {
            return false;
        }
        ExpressionTree before = member.getExpression();
        return before instanceof IdentifierTree name && name.getName().contentEquals("super")
            || before instanceof MemberSelectTree inner && inner.getIdentifier().contentEquals("super");
    }

    /** The arguments' steps, and the values that may name locks. */
    private List<Value> arguments(JavaMethod method, List<? extends ExpressionTree> trees) {
        List<Value> all = trees.stream().map(expressions::value).toList();
        List<? extends VariableElement> parameters = method.symbol().getParameters();
        for (int k = 0; k < all.size(); k++) {
            boolean told = !method.isStatic() && k < parameters.size()
                && services.ownership().holding(parameters.get(k)) != null;
            if (!told) {
                boolean looks = k < parameters.size() && !method.symbol().isVarArgs()
                    && services.ownership().onlyLooks(parameters.get(k));
                lend(all.get(k), !looks, trees.get(k));
                if (all.get(k) instanceof Value.Owned && k < parameters.size()) {
                    lent(parameters.get(k));
                }
                expose(all.get(k), trees.get(k), k < parameters.size() ? parameters.get(k) : null);
            }
        }
        List<Value> kept = new ArrayList<>();
        if (!method.isStatic()) {
            kept.add(new Value.Named(body.statics()));
        }
        var wanted = services.families().parameters(method).keySet();
        for (int k = 0; k < parameters.size(); k++) {
            boolean single = k < all.size() && (!method.symbol().isVarArgs() || k < parameters.size() - 1);
            if (wanted.contains(parameters.get(k))) {
                kept.add(single ? all.get(k) : Value.OPAQUE);
            }
        }
        return kept;
    }

    /** A method that is given an owned object may look at its contents, or change them, any number of times. */
    private void lend(Value value, boolean write, Tree at) {
        if (value instanceof Value.Owned owned && !(owned.receiver() instanceof Value.Fresh)) {
            Part access = new Part.Access(owned.receiver(), owned.contents(), write, services.attribution().name(at));
            body.emit(Part.sequence(List.of(access, access)));
            services.functions().compare(services.fields().comparing(owned.contents()), body, at);
        }
    }

    /** Notes where a method uses what it is lent, for who compares logs with the skeleton. */
    private void lent(VariableElement parameter) {
        for (Tree use : services.uses().of(parameter)) {
            Tree around = services.attribution().parent(use);
            Tree call = around instanceof MemberSelectTree ? services.attribution().parent(around) : around;
            services.program().lent().add(services.attribution().name(use));
            services.program().lent().add(services.attribution().name(call));
        }
    }

    /** What a field holds that others may know is touched by a method that is given it, whatever that method may assume. */
    private void expose(Value value, ExpressionTree given, VariableElement parameter) {
        boolean known = value instanceof Value.Owned || value instanceof Value.Fresh || services.immutable(given) != null;
        if (parameter != null && !known && isFound(given) && services.uses().isAsked(parameter)) {
            body.emit(services.doubt(Method.Doubt.OPEN, given.toString(), true, body, given, "object of others: other threads may"
                + " know what is found here, which a method is given, so that counts as several steps"));
            return;
        }
        if (parameter == null || known || !(services.attribution().element(Uses.bare(given)) instanceof VariableElement field)
                || !field.getKind().isField() || services.program().find(field.getEnclosingElement()) == null
                || !services.program().library().hasContents(field.asType()) || !services.uses().isAsked(parameter)) {
            return;
        }
        body.emit(services.doubt(Method.Doubt.OPEN, given.toString(), true, body, given, "object of others: other threads may"
            + " know what " + field.getSimpleName() + " holds, which a method is given here, so that counts as several steps"));
    }

    /** Whether an expression gives a collection or an array that an object holds: a part of a record, or what a collection gives. */
    private boolean isFound(ExpressionTree given) {
        return Uses.bare(given) instanceof MethodInvocationTree call && call.getMethodSelect() instanceof MemberSelectTree select
            && services.attribution().element(call) instanceof ExecutableElement symbol
            && (services.program().isAccessor(symbol) || services.program().method(symbol) == null
                && symbol.getSimpleName().contentEquals("get") && services.attribution().element(Uses.bare(select.getExpression()))
                    instanceof VariableElement field && field.getKind().isField())
            && services.program().library().hasContents(services.attribution().type(call));
    }

    private void invoke(JavaMethod method, Value receiver, List<Value> arguments, Tree tree) {
        if (method.isStatic()) {
            new Initialisers(services).start(method.owner(), body, tree);
            emit(services.methods().of(method), new Value.Named(body.statics()), arguments, tree);
            return;
        }
        boolean node = services.nodes().container(method.owner()) != null;
        Value holder = node && receiver instanceof Value.Node one ? one.container() : receiver;
        if (holder instanceof Value.Fresh) {
            fresh(method, arguments, tree);
        } else if (tree instanceof MethodInvocationTree call && isSuper(call.getMethodSelect())) {
            emit(services.methods().of(method, heir(method), false), holder, arguments, tree);
        } else {
            emit(services.methods().of(method), holder, arguments, tree);
        }
    }

    /**
     * The class that has a method by {@code super}: this one. Where each of many classes calls that of the one above, this
     * would be as many methods of each; so from some way up on it is a class above, whose objects these are too.
     */
    private JavaClass heir(JavaMethod method) {
        List<JavaClass> line = new ArrayList<>();
        for (JavaClass each = body.self(); each != null && each != method.owner(); each = services.families().above(each)) {
            line.add(each);
        }
        boolean far = line.size() > MOST_HEIRS && services.families().isBelow(body.self(), method.owner())
            && !method.owner().isInterface();
        return far ? line.get(line.size() - MOST_HEIRS) : body.self();
    }

    /** A call on an object that nobody else knows: any method that may run there, without the steps on that object. */
    private void fresh(JavaMethod method, List<Value> arguments, Tree tree) {
        List<Part> all = new ArrayList<>();
        List<JavaMethod> mayRun = new ArrayList<>(List.of(method));
        services.program().overriding().of(method).stream().filter(each -> method.isVirtual() && each.isVirtual())
            .forEach(mayRun::add);
        mayRun.sort(Comparator.comparing(JavaMethod::place));
        for (JavaMethod each : mayRun) {
            if (!each.isAbstract()) {
                all.add(body.collect(() -> emit(services.methods().of(each, each.owner(), true),
                    new Value.Fresh(each.owner().shape()), arguments, tree)));
            }
        }
        if (all.isEmpty()) {
            emit(services.methods().of(method), new Value.Fresh(method.owner().shape()), arguments, tree);
        }
        body.emit(Dispatch.either(all));
    }

    private void emit(Method target, Value receiver, List<Value> arguments, Tree tree) {
        boolean fits = receiver.type() != null && receiver.type().fits(target.owner())
            && !(receiver instanceof Value.Fresh) && !(receiver instanceof Value.Owned);
        body.emit(new Part.Call(fits ? receiver : new Value.Opaque(target.owner()), target, arguments,
            services.attribution().name(tree)));
    }

    /** {@code this(..)} or {@code super(..)} at the beginning of a constructor. */
    private Value another(MethodInvocationTree tree, ExecutableElement symbol) {
        JavaMethod method = services.program().method(symbol);
        boolean above = tree.getMethodSelect() instanceof IdentifierTree name && name.getName().contentEquals("super")
            || tree.getMethodSelect() instanceof MemberSelectTree;
        if (method != null) {
            emit(services.methods().of(method), new Value.Fresh(null), arguments(method, tree.getArguments()), tree);
        } else {
            tree.getArguments().forEach(expressions::value);
        }
        if (above) {
            new Initialisers(services).run(body.self(), body);
        }
        return Value.OPAQUE;
    }

    /** The making of an object: nobody else knows it, unless its constructor lets it get away. */
    Value construct(NewClassTree tree) {
        if (tree.getEnclosingExpression() != null) {
            expressions.value(tree.getEnclosingExpression());
        }
        JavaMethod constructor = services.program().method(services.attribution().element(tree));
        if (constructor == null) {
            return new Capacities(services, body).construct(tree);
        }
        new Initialisers(services).start(constructor.owner(), body, tree);
        List<Value> arguments = arguments(constructor, tree.getArguments());
        Shape shape = constructor.owner().shape();
        emit(services.methods().of(constructor), node(constructor, tree), arguments, tree);
        boolean leaks = services.ownership().escape().selves().from(constructor) != Escape.NEVER;
        return leaks ? new Value.Opaque(shape) : new Value.Fresh(shape);
    }

    private Value node(JavaMethod constructor, Tree tree) {
        JavaClass container = services.nodes().container(constructor.owner());
        Value holder = container == null ? null : body.object(container, services.attribution().start(tree));
        return holder == null ? new Value.Fresh(null) : holder;
    }

    /** An object of a method's class of which nothing else is known; nodes are this container's. */
    private Value any(JavaMethod method, Tree tree) {
        JavaClass container = services.nodes().container(method.owner());
        Value holder = container == null ? null : body.object(container, services.attribution().start(tree));
        return holder == null ? new Value.Opaque(method.owner().shape()) : new Value.Node(holder);
    }

    /** What a name of a method calls, with arguments of which nothing is known. */
    void reference(MemberReferenceTree tree) {
        Element symbol = services.attribution().element(tree);
        JavaMethod method = services.program().method(symbol);
        Element qualifier = services.attribution().element(Uses.bare(tree.getQualifierExpression()));
        boolean isType = qualifier == null || qualifier.getKind().isClass() || qualifier.getKind().isInterface();
        if (method != null && method.isConstructor()) {
            new Initialisers(services).start(method.owner(), body, tree);
            emit(services.methods().of(method), new Value.Fresh(null), List.of(new Value.Named(body.statics())), tree);
        } else if (method != null) {
            Value receiver = isType ? any(method, tree) : expressions.value(tree.getQualifierExpression());
            List<Value> arguments = method.isStatic() ? List.of() : List.of(new Value.Named(body.statics()));
            invoke(method, receiver, arguments, tree);
        } else if (symbol instanceof ExecutableElement executable) {
            new LibraryCalls(services, body).reference(tree, executable, isType);
        }
    }
}
