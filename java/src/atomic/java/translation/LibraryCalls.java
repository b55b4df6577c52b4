package atomic.java.translation;

import atomic.java.library.Choice;
import atomic.java.library.Library;
import atomic.java.ownership.Results;
import atomic.java.ownership.Uses;
import atomic.java.places.Notes;
import atomic.java.program.JavaClass;
import atomic.java.skeleton.Method;
import atomic.java.skeleton.Part;
import atomic.java.skeleton.Value;
import com.sun.source.tree.ExpressionStatementTree;
import com.sun.source.tree.ExpressionTree;
import com.sun.source.tree.LambdaExpressionTree;
import com.sun.source.tree.MemberReferenceTree;
import com.sun.source.tree.MemberSelectTree;
import com.sun.source.tree.MethodInvocationTree;
import com.sun.source.tree.NewClassTree;
import com.sun.source.tree.Tree;
import java.util.ArrayList;
import java.util.List;
import java.util.Set;
import javax.lang.model.element.Element;
import javax.lang.model.element.ElementKind;
import javax.lang.model.element.ExecutableElement;
import javax.lang.model.element.Modifier;
import javax.lang.model.element.TypeElement;
import javax.lang.model.element.VariableElement;
import javax.lang.model.type.TypeKind;
import javax.lang.model.type.TypeMirror;

/** Calls of methods that aren't at hand, as the table of library classes says. */
final class LibraryCalls {
    /** Classes whose methods take the monitor of their object for all that they do with it. */
    private static final Set<String> OWN_MONITOR = Set.of("java.lang.StringBuffer", "java.util.Vector", "java.util.Stack",
        "java.util.Hashtable", "java.util.Collections.Synchronized");

    /** What shows the parts of an object. */
    private static final Set<String> SHOWING = Set.of("keySet", "values", "entrySet", "iterator", "listIterator", "stream",
        "subList", "spliterator");

    private final Services services;
    private final Body body;
    private final Expressions expressions;

    /** A call: what it is called, on which object, what the table says, where it stands, and what is given to it. */
    record Called(String shown, Value object, Choice choice, Tree at, List<? extends ExpressionTree> arguments) { }

    LibraryCalls(Services services, Body body) {
        this.services = services;
        this.body = body;
        expressions = new Expressions(services, body);
    }

    Value call(MethodInvocationTree tree, ExecutableElement symbol) {
        ExpressionTree before = tree.getMethodSelect() instanceof MemberSelectTree select ? select.getExpression() : null;
        boolean isStatic = symbol.getModifiers().contains(Modifier.STATIC);
        if (isStatic && services.program().find(symbol.getEnclosingElement()) != null) {
            new Initialisers(services).start(services.program().find(symbol.getEnclosingElement()), body, tree);
        }
        ExpressionTree function = before == null ? null : services.functions().named(before);
        if (function != null) {
            tree.getArguments().forEach(expressions::value);
            services.functions().run(function, body, tree);
            return Value.OPAQUE;
        }
        services.functions().compare(services.ownership().comparators().named(before), body, tree);
        Value object = isStatic ? Value.OPAQUE : before == null ? own(symbol, tree) : expressions.value(before);
        if (new Waits(services, body).isWait(tree, symbol, before)) {
            tree.getArguments().forEach(expressions::value);
            return Value.OPAQUE;
        }
        if (before != null && services.attribution().type(before).getKind() == TypeKind.ARRAY
                && symbol.getSimpleName().contentEquals("clone")) {
            new Contents(services, body).copy(object, tree, before + ".clone");
            return new Value.Fresh(null);
        }
        Choice choice = Pipelines.mayBeParallel(tree, symbol) ? Choice.UNKNOWN
            : new Results(services.attribution()).spreads(tree, symbol)
            ? services.ownership().escape().choose(tree.getMethodSelect(), symbol) : choose(before, symbol, isStatic);
        List<Value> values = new ArrayList<>();
        body.over(choice.kind() == Choice.Kind.RUN ? object : body.element(), () ->
            values.addAll(values(tree.getArguments(), choice)));
        Called called = new Called(shown(symbol, before, isStatic), object, choice, tree, tree.getArguments());
        new Arguments(services, body).lookAt(called, values);
        if (choice.kind() == Choice.Kind.RUN || choice.kind() == Choice.Kind.VIEW && before != null
                && new Pipelines(services, body).isStream(services.attribution().type(before))) {
            new Pipelines(services, body).run(called, before);
        } else {
            steps(called);
        }
        return result(called, values, isStatic);
    }

    /** This object, where a method of a library's class above is called without a receiver. */
    private Value own(ExecutableElement symbol, Tree tree) {
        Value object = body.inheriting(symbol.getEnclosingElement(), services.attribution().start(tree));
        return object == null ? Value.OPAQUE : object;
    }

    /** Functions that are called at once are written with the call, not where they stand. */
    private List<Value> values(List<? extends ExpressionTree> arguments, Choice choice) {
        List<Value> values = new ArrayList<>();
        for (ExpressionTree argument : arguments) {
            ExpressionTree bare = Uses.bare(argument);
            boolean function = bare instanceof LambdaExpressionTree || bare instanceof MemberReferenceTree
                || services.functions().named(bare) != null;
            boolean later = function && services.ownership().escape().isCalledAtOnce(bare);
            values.add(later ? Value.OPAQUE : expressions.value(argument));
        }
        return values;
    }

    private Choice choose(ExpressionTree before, ExecutableElement symbol, boolean isStatic) {
        if (services.program().isAccessor(symbol)) {
            return Choice.ACCESSOR;
        }
        String name = Library.key(symbol);
        if (isStatic || before == null) {
            JavaClass heir = body.heir(symbol.getEnclosingElement());
            TypeMirror home = isStatic || heir == null ? symbol.getEnclosingElement().asType() : heir.symbol().asType();
            return services.program().library().choose(home, name);
        }
        return choose(before, name);
    }

    /** What the table says of a method of what a name holds: of the class that was made for it, else of its type. */
    private Choice choose(ExpressionTree before, String name) {
        Element source = services.attribution().element(Uses.bare(before));
        String made = source instanceof VariableElement variable
            && (variable.getKind() == ElementKind.FIELD || variable.getKind() == ElementKind.LOCAL_VARIABLE)
            ? services.ownership().made(variable) : null;
        if (made != null && !made.equals("[]")) {
            Choice choice = services.program().library().choose(made, name);
            if (choice.kind() != Choice.Kind.UNKNOWN) {
                return choice;
            }
        }
        return services.program().library().choose(services.attribution().type(before), name);
    }

    private String shown(ExecutableElement symbol, ExpressionTree before, boolean isStatic) {
        TypeMirror type = before == null || isStatic ? null : services.attribution().types()
            .erasure(services.attribution().type(before));
        Element home = type instanceof javax.lang.model.type.DeclaredType declared ? declared.asElement()
            : symbol.getEnclosingElement();
        return home.getSimpleName() + "." + symbol.getSimpleName();
    }

    private void steps(Called called) {
        Choice choice = called.choice();
        if (choice.kind() != Choice.Kind.UNKNOWN) {
            new Comparisons(services, body).write(called);
            new Callbacks(services, body).write(called);
            if (Comparisons.joins(called.shown())) {
                called.arguments().forEach(each -> joined(each, null));
            }
        }
        if (isWithinOwnMonitor(called)) {
            body.emit(new Part.Region(called.object().path(), Part.Mode.EXCLUSIVE, Part.NOTHING,
                services.attribution().name(called.at())));
            return;
        }
        if (choice.kind() == Choice.Kind.COMPOUND && (isRetry(called) || services.stable().countsByOne(called))) {
            body.emit(services.step(called.shown(), false, called.at()));
            return;
        }
        switch (choice.kind()) {
            case PURE, VIEW, PIPE -> { }
            case ASSUMED -> {
                new Comparisons(services, body).tested(called);
                if (!new ThreadLocals(services, body).first(called.at())) {
                    assume(called);
                }
            }
            case STEP -> step(called);
            case COMPOUND -> compound(called);
            case READS, WRITES, RUN -> new Contents(services, body).call(called.object(),
                choice.kind() == Choice.Kind.WRITES, called.at(), called.shown());
            default -> unknown(called);
        }
        if (choice.runsFunctions()) {
            Value walked = new Pipelines(services, body).isCollected(called.at()) ? body.element() : called.object();
            body.over(walked, () -> services.functions().callAll(called.arguments(), body, called.at(), choice.once()));
        }
    }

    /** Whether a call only takes the monitor of its object, which is held already: then nobody else can see it. */
    private boolean isWithinOwnMonitor(Called called) {
        if (!body.holds(called.object().path()) || called.choice().kind() != Choice.Kind.STEP
                || !(called.at() instanceof MethodInvocationTree call)
                || !(call.getMethodSelect() instanceof MemberSelectTree select)) {
            return false;
        }
        String made = services.attribution().element(Uses.bare(select.getExpression())) instanceof VariableElement variable
            ? services.ownership().made(variable) : null;
        String type = services.attribution().types().erasure(services.attribution().type(select.getExpression())).toString();
        return OWN_MONITOR.contains(type) || made != null && OWN_MONITOR.contains(made);
    }

    private void compound(Called called) {
        // One key after the other is surely several steps, whatever the function does.
        boolean many = called.shown().matches("Concurrent.*replaceAll");
        boolean own = called.choice().runsFunctions() && !many && called.arguments().stream().map(Uses::bare).anyMatch(each ->
            each instanceof LambdaExpressionTree || each instanceof MemberReferenceTree);
        new Touches(services).note(called.at());
        boolean any = own || isLock(called) || services.stable().counts(called) || services.stable().isFoundSum(called);
        body.emit(services.doubt(any ? Method.Doubt.ANY : Method.Doubt.OPEN, called.shown(), true, body, called.at(),
            "compound library call: " + called.shown() + " counts as several steps"));
    }

    /** Whether a call tries again by itself until nobody came in between, with a function that has no step. */
    private boolean isRetry(Called called) {
        return new Attempts(services).isRetry(called) && new Steps(services).of(body.collect(() ->
            services.functions().callAll(called.arguments(), body, called.at(), false))).isEmpty();
    }

    /** One step; a task that is handed over with it runs in another thread, unless a class at hand may run it here. */
    private void step(Called called) {
        if (services.program().sure() && called.shown().equals("StampedLock.validate")) {
            // What was looked at without the lock is looked at again where this doesn't hold.
            return;
        } else if (isLock(called)) {
            lock(called);
        } else if (new StableLooks(services).isStable(called)) {
            services.hint(called.at(), "stable look: nothing is taken out of this map, so what a look has found stays so;"
                + " where that isn't asked at once, it counts as a step all the same");
            body.emit(services.program().sure() ? Part.NOTHING : services.step(called.shown(), false, called.at()));
        } else if (new StableLooks(services).isUnderLock(called)) {
            services.hint(called.at(), "look under a lock: some of what changes this object holds a lock, so that a look within"
                + " a region may tell the same later; it counts as a step all the same");
            body.emit(services.look(called.shown(), called.at()));
        } else if (starts(called)) {
            services.hint(called.at(), "start: a thread that is started may run at any later time, so its start may be moved;"
                + " it counts as a step all the same");
            body.emit(services.program().sure() ? Part.NOTHING : services.step(called.shown(), false, called.at()));
        } else if (!called.choice().elsewhere()) {
            body.emit(services.step(called.shown(), false, called.at()));
        } else if (services.program().options().strict() || isAtHand(called)) {
            unknown(called);
        } else {
            services.tell(Notes.Kind.ASSUMED, body, called.at(), "the task that " + called.shown()
                + " is given runs in another thread");
            body.emit(services.step(called.shown(), false, called.at()));
        }
    }

    private boolean starts(Called called) {
        Element symbol = services.attribution().element(called.at());
        return symbol != null && symbol.getSimpleName().contentEquals("start")
            && symbol.getEnclosingElement().toString().equals("java.lang.Thread");
    }

    private boolean isLock(Called called) {
        return called.at() instanceof MethodInvocationTree call && call.getMethodSelect() instanceof MemberSelectTree select
            && select.getIdentifier().toString().toLowerCase(java.util.Locale.ROOT).contains("lock")
            && new Locking(services, body).isA(select.getExpression(), "java.util.concurrent.locks.Lock");
    }

    /** A lock that is taken in no form that is known: a step, unless only what is certain counts. */
    private void lock(Called called) {
        body.locksSomehow();
        if (!(services.attribution().parent(called.at()) instanceof ExpressionStatementTree)) {
            services.hint(called.at(), "lock and unlock stand in no form that is known here, so that " + called.shown()
                + " counts as a step");
        }
        body.emit(services.program().sure() ? Part.NOTHING : services.step(called.shown(), false, called.at()));
    }

    /** Whether a class of the sources is one of those whose method is called. */
    private boolean isAtHand(Called called) {
        Element symbol = services.attribution().element(called.at());
        return symbol != null && services.program().overriding().isAtHand(symbol.getEnclosingElement());
    }

    private void unknown(Called called) {
        if (called.at() instanceof MethodInvocationTree call && call.getMethodSelect() instanceof MemberSelectTree select
                && services.functions().isFunction(select.getExpression())
                && !services.functions().unknownCode().handsOut(call.getArguments())) {
            body.emit(services.brought(Method.Doubt.ANY, called.shown(), services.attribution().type(select.getExpression()),
                called.at(), "unknown call: " + called.shown() + " runs a function that isn't known, so it counts as several steps"));
        } else {
            body.emit(services.doubt(new Contents(services, body).openness(called.at()), called.shown(), true, body, called.at(),
                "unknown call: " + called.shown() + " may do anything, so it counts as several steps"));
        }
    }

    private void assume(Called called) {
        if (services.program().options().strict()) {
            unknown(called);
        } else {
            services.tell(Notes.Kind.ASSUMED, body, called.at(), called.shown() + " looks at nothing that others write");
        }
    }

    private Value result(Called called, List<Value> values, boolean isStatic) {
        Choice choice = called.choice();
        if (choice.makes() != null) {
            return !called.shown().endsWith(".clone") || isMadeNew(called) ? new Value.Fresh(null) : Value.OPAQUE;
        } else if (services.ownership().isTakenOut(called.at())) {
            return new Value.Fresh(null);
        } else if (services.ownership().inner(called.at()) != null) {
            return new Accesses(services, body).confined(services.ownership().inner(called.at()),
                services.attribution().start(called.at()));
        } else if (called.at() instanceof MethodInvocationTree call && services.immutable(call) != null) {
            return services.fields().unchanging(services.immutable(call));
        } else if (immutable(called) != null && SHOWING.contains(name(called))) {
            return services.fields().unchanging(immutable(called));
        } else if (choice.kind() == Choice.Kind.VIEW || choice.kind() == Choice.Kind.PIPE) {
            return isStatic ? values.isEmpty() ? new Value.Fresh(null) : values.get(0) : called.object();
        } else if (called.shown().startsWith("StringBu") && services.attribution().type(called.at()).toString()
                .equals("java.lang." + called.shown().substring(0, called.shown().indexOf('.')))) {
            return called.object();
        } else if (called.shown().endsWith(".readLock") || called.shown().endsWith(".writeLock")) {
            return called.object();
        }
        return isMadeNew(called) ? new Value.Fresh(null) : Value.OPAQUE;
    }

    private static String name(Called called) {
        return called.shown().substring(called.shown().lastIndexOf('.') + 1);
    }

    /** The field whose own object a call is made on, where that never changes; else null. */
    private VariableElement immutable(Called called) {
        return called.at() instanceof MethodInvocationTree call && call.getMethodSelect() instanceof MemberSelectTree select
            ? services.immutable(select.getExpression()) : null;
    }

    private boolean isMadeNew(Called called) {
        return called.at() instanceof MethodInvocationTree call && services.ownership().fresh(call) != null;
    }

    /** The making of a library's object. */
    Value construct(NewClassTree tree) {
        List<Value> values = tree.getArguments().stream().map(expressions::value).toList();
        TypeMirror type = services.attribution().type(tree);
        if (tree.getClassBody() != null && services.attribution().element(tree.getClassBody()) instanceof TypeElement own) {
            JavaClass known = services.program().find(own);
            return known == null ? Value.OPAQUE : new Value.Opaque(known.shape());
        } else if (services.program().find(type) != null) {
            return new Value.Fresh(services.program().find(type).shape());
        }
        Choice choice = services.program().library().choose(type, "new");
        Called called = new Called("new " + simple(type), Value.OPAQUE, choice, tree, tree.getArguments());
        if (choice.kind() == Choice.Kind.PURE) {
            new Arguments(services, body).lookAt(called, values);
            new Comparisons(services, body).fill(called);
            new Callbacks(services, body).write(called);
        } else {
            steps(called);
        }
        return choice.keeps() || choice.kind() == Choice.Kind.UNKNOWN ? Value.OPAQUE : new Value.Fresh(null);
    }

    /** The name of a type. One that javac makes up for a wildcard has a number, which differs from run to run. */
    private String simple(TypeMirror type) {
        TypeMirror named = String.valueOf(type).startsWith("capture#") ? services.attribution().types().erasure(type) : type;
        return named instanceof javax.lang.model.type.DeclaredType declared ? declared.asElement().getSimpleName().toString()
            : String.valueOf(named);
    }

    /** A method's name that stands for a library's method. */
    void reference(MemberReferenceTree tree, ExecutableElement symbol, boolean isType) {
        if (symbol.getKind() == ElementKind.CONSTRUCTOR) {
            Choice choice = services.program().library().choose(symbol.getEnclosingElement().asType(), "new");
            steps(new Called("new " + symbol.getEnclosingElement().getSimpleName(), Value.OPAQUE, choice, tree, List.of()));
            return;
        }
        boolean isStatic = symbol.getModifiers().contains(Modifier.STATIC);
        boolean entry = isType && Iteration.isEntry(symbol.getEnclosingElement().asType());
        Value object = entry ? body.element() : isType ? Value.OPAQUE : expressions.value(tree.getQualifierExpression());
        Choice choice = choose(tree.getQualifierExpression(), symbol, isStatic);
        steps(new Called(shown(symbol, isStatic ? null : tree.getQualifierExpression(), isStatic), object, choice, tree,
            List.of()));
    }

    /**
     * A part of a text: its {@code toString} is called, which looks at the contents of a collection. Without an object, what is
     * looked at among a call's arguments is written already.
     */
    void joined(ExpressionTree part, Value object) {
        TypeMirror type = services.attribution().type(Callbacks.written(part));
        if (type == null || type.getKind().isPrimitive() || type.getKind() == TypeKind.NULL
                || type.getKind() == TypeKind.ARRAY) {
            return;
        }
        JavaClass known = services.program().find(type);
        if (known != null) {
            new Comparisons(services, body).own(known, Comparisons.TEXT, part);
            return;
        }
        Choice choice = choose(Callbacks.written(part), "toString");
        Called called = new Called(simple(type) + ".toString", Value.OPAQUE, choice, part, List.of());
        if (choice.kind() == Choice.Kind.READS) {
            new Comparisons(services, body).elements(type, called);
            if (object != null && services.immutable(part) == null) {
                new Contents(services, body).call(object, false, part, called.shown());
            }
        } else {
            new Comparisons(services, body).elements(type, called);
            steps(called);
        }
    }
}
