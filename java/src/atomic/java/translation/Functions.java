package atomic.java.translation;

import atomic.java.ownership.Uses;
import atomic.java.program.JavaClass;
import atomic.java.program.JavaMethod;
import atomic.java.skeleton.Field;
import atomic.java.skeleton.Method;
import atomic.java.skeleton.Part;
import atomic.java.skeleton.Path;
import atomic.java.skeleton.Shape;
import atomic.java.skeleton.Value;
import com.sun.source.tree.BlockTree;
import com.sun.source.tree.ExpressionTree;
import com.sun.source.tree.IdentifierTree;
import com.sun.source.tree.LambdaExpressionTree;
import com.sun.source.tree.MemberReferenceTree;
import com.sun.source.tree.MethodTree;
import com.sun.source.tree.Tree;
import com.sun.source.tree.VariableTree;
import com.sun.source.util.TreeScanner;
import java.util.ArrayList;
import java.util.Collection;
import java.util.HashMap;
import java.util.HashSet;
import java.util.List;
import java.util.Map;
import java.util.Set;
import javax.lang.model.element.VariableElement;
import javax.lang.model.type.TypeMirror;

/**
 * Lambdas and names of methods. One that a library calls at once is a part of its caller; any other is a class with one
 * method, and is judged alone, since it may run at any time and in any thread.
 */
final class Functions {

    /** How often a helper's body is written within itself. */
    private static final int DEEPEST = 3;

    /** How many bodies of helpers and functions are written for one call, since each may call others more than once. */
    private static final int MOST_BODIES = 500;

    /** How many parts a method has at most that still gets such a body; with more it fits into no text. */
    private static final int MOST_PARTS = 10_000;

    /** All that a function that is judged by itself depends on: its code, whose object it belongs to, and of what it is told. */
    private record Apart(Tree function, JavaClass self, Shape me, boolean node, Object origin) {

        static Apart of(Tree function, Body around, Value me) {
            return new Apart(function, around.self(), me == null ? null : me.type(), me instanceof Value.Node, around.origin());
        }
    }

    private final Services services;
    private final Map<JavaClass, List<Method>> implementations = new HashMap<>();
    private final Map<VariableElement, ExpressionTree> given = new HashMap<>();
    private final List<JavaMethod> helpers = new ArrayList<>();
    private final Map<Tree, Set<Tree>> around = new HashMap<>();
    private final Map<Tree, Integer> standing = new HashMap<>();
    private int bodies;
    private int open;
    private final Set<Tree> begun = new HashSet<>();
    private final Set<Apart> apart = new HashSet<>();
    private final Map<VariableElement, ExpressionTree> bound = new HashMap<>();
    private final Map<Apart, Integer> told = new HashMap<>();
    private int bindings;
    private final UnknownCode unknownCode;

    Functions(Services services) {
        this.services = services;
        unknownCode = new UnknownCode(services);
    }

    /** Calls of code that others bring. */
    UnknownCode unknownCode() {
        return unknownCode;
    }

    /** The functions that stand for objects of an interface of the sources. */
    List<Method> implementations(JavaClass type) {
        return implementations.getOrDefault(type, List.of());
    }

    /** Writes a lambda as a part of the body that it stands in. */
    void inline(LambdaExpressionTree tree, Body body) {
        for (VariableTree parameter : tree.getParameters()) {
            new Locals(services, body).declare(parameter, new Iteration(services, body).element(parameter, body.element()));
        }
        if (tree.getBody() instanceof BlockTree block) {
            new Statements(services, body).all(block.getStatements());
        } else {
            new Expressions(services, body).value((ExpressionTree) tree.getBody());
        }
    }

    /** The function that a name stands for: of a local that is only called, or of a helper's parameter. */
    ExpressionTree named(ExpressionTree tree) {
        ExpressionTree function = given.get(services.attribution().element(Uses.bare(tree)));
        return function != null ? function : services.ownership().localFunctions().named(tree);
    }

    /** Writes a helper's body, whose parameters stand for these functions. */
    void within(JavaMethod helper, Map<VariableElement, ExpressionTree> functions, Runnable work) {
        Map<VariableElement, ExpressionTree> before = new HashMap<>();
        helpers.add(helper);
        services.methods().helper(helper.place());
        functions.forEach((name, function) -> before.put(name, give(name, function)));
        try {
            count(() -> {
                functions.forEach(this::bind);
                work.run();
            });
        } finally {
            before.forEach(this::give);
            helpers.remove(helpers.size() - 1);
        }
    }

    /** A parameter stands for a function from here on, or for none; what it stood for before. */
    private ExpressionTree give(VariableElement name, ExpressionTree function) {
        ExpressionTree before = function == null ? given.remove(name) : given.put(name, function);
        stand(before, -1);
        stand(function, 1);
        return before;
    }

    /** A name stands for a function from here on: what mentions it may mention other functions now. */
    private void bind(VariableElement name, ExpressionTree function) {
        if (bound.put(name, function) != function) {
            bindings++;
        }
    }

    /** Writes a body within those that are open. */
    private void count(Runnable work) {
        bodies = open == 0 ? 1 : bodies + 1;
        if (open == 0) {
            bound.clear();
            told.clear();
        }
        open++;
        try {
            work.run();
        } finally {
            open--;
        }
    }

    private boolean hasRoom(Body body) {
        return body.size() < MOST_PARTS && (open == 0 || bodies < MOST_BODIES);
    }

    /**
     * Whether a helper's body may be written: within itself a few times, as a function that it is given may call it, but then
     * none of the functions at hand stands in it, since what that one names belongs to the call around.
     */
    boolean mayBegin(JavaMethod helper, Collection<ExpressionTree> functions, Body body) {
        return hasRoom(body) && helpers.stream().filter(each -> each == helper).count() < DEEPEST
            && !standing.containsKey(helper.tree())
            && functions.stream().noneMatch(each -> around(each).contains(helper.tree()));
    }

    /** The methods that a function stands in. */
    private Set<Tree> around(Tree function) {
        return around.computeIfAbsent(function, key -> {
            Set<Tree> all = new HashSet<>();
            for (Tree each = function; each != null; each = services.attribution().parent(each)) {
                if (each instanceof MethodTree) {
                    all.add(each);
                }
            }
            return all;
        });
    }

    /** A function is given to a parameter from here on, or isn't any more. */
    private void stand(ExpressionTree function, int more) {
        if (function != null) {
            around(function).forEach(each -> standing.merge(each, more, (one, other) -> one + other == 0 ? null : one + other));
        }
    }

    /** A function that is only called, and is given to a call that isn't written with it, is judged by itself too. */
    void passed(ExpressionTree name, Body around) {
        ExpressionTree function = named(name);
        if (function != null) {
            alone(function, around);
        }
    }

    /** The same of functions that a function mentions which is judged by itself: what it is then called with isn't known. */
    private void mentioned(Tree function, Body around) {
        if (given.isEmpty()) {
            return;
        }
        new TreeScanner<Void, Void>() {
            @Override
            public Void visitIdentifier(IdentifierTree name, Void nothing) {
                ExpressionTree other = given.get(services.attribution().element(name));
                if (other != null) {
                    alone(other, around);
                }
                return null;
            }
        }.scan(function, null);
    }

    /** Writes a function that is at hand where it is called; past the limits nothing is known of it there. */
    void run(ExpressionTree function, Body body, Tree call) {
        if (hasRoom(body)) {
            count(() -> inline(function, body));
        } else {
            alone(function, body);
            body.emit(services.doubt(Method.Doubt.ANY, "a function that isn't known", true, body, call,
                "limit: a call writes the bodies of at most " + MOST_BODIES + " functions, so this one may do anything"));
        }
    }

    private void inline(ExpressionTree function, Body body) {
        if (function instanceof LambdaExpressionTree lambda) {
            inline(lambda, body);
        } else if (function instanceof MemberReferenceTree reference) {
            new Calls(services, body).reference(reference);
        }
    }

    /** Makes a lambda, or the name of a method, a class of its own with one method, unless it is only called. */
    void apart(ExpressionTree function, Body around) {
        if (!services.ownership().localFunctions().isOnlyCalled(function)
                && !services.ownership().comparators().isFollowed(function)) {
            alone(function, around);
        }
    }

    private void alone(ExpressionTree function, Body around) {
        boolean outermost = begun.isEmpty();
        Value me = around.me(services.attribution().start(function)) == null ? null : around.me(Long.MAX_VALUE);
        Apart one = Apart.of(function, around, me);
        boolean fresh = open == 0 || !Integer.valueOf(bindings).equals(told.put(one, bindings));
        if (fresh && begun.add(function)) {
            boolean first = apart.add(one);
            Method method = first ? method(function, around) : null;
            Body body = first ? body(function, method, around) : null;
            mentioned(function, around);
            if (first) {
                services.methods().later(() -> method.body(body.collect(() -> inline(function, body))));
                unknownCode.stands(function, method);
            }
        }
        if (outermost) {
            begun.clear();
        }
    }

    private Method method(Tree tree, Body around) {
        String home = services.program().names().shown(around.target().owner().name());
        String name = services.program().names().shown(around.target().name());
        String shown = "lambda in " + (name.startsWith("=") ? name.substring(1) : home + "." + name);
        Shape shape = new Shape(services.program().names().invent("Lambda", shown), services.attribution().place(tree));
        shape.parent(services.program().object());
        services.program().shapes().add(shape);
        Method method = new Method(shape, services.program().names().invent("call", "=" + shown), shape.place());
        method.parameters().add(new Path.Root(Path.Kind.PARAMETER, "S", services.program().statics()));
        shape.methods().add(method);
        services.methods().judgeAlone(method, around.origin());
        JavaClass type = services.program().find(services.attribution().type(tree));
        if (type != null) {
            implementations.computeIfAbsent(type, key -> new ArrayList<>()).add(method);
        }
        return method;
    }

    private Body body(Tree tree, Method method, Body around) {
        Value outer = around.me(services.attribution().start(tree)) == null ? null : outer(method.owner(), around);
        Body body = new Body(services, method, new Body.Owner(around.self(), outer, around.origin()), 0);
        if (tree instanceof LambdaExpressionTree lambda) {
            for (VariableTree each : lambda.getParameters()) {
                if (services.attribution().element(each) instanceof VariableElement symbol) {
                    body.locals().put(symbol, Value.OPAQUE);
                }
            }
        }
        return body;
    }

    private Value outer(Shape shape, Body around) {
        Shape type = around.me(Long.MAX_VALUE).type();
        Field field = services.fields().outerOf(shape, type);
        Value found = new Value.Named(Path.of(new Path.Root(Path.Kind.THIS, "this", shape)).then(field));
        return around.me(Long.MAX_VALUE) instanceof Value.Node ? new Value.Node(found) : found;
    }

    /**
     * Writes the functions among the arguments of a call that calls them, any number of times, or once at most. What it takes as any object,
     * as {@code Objects.requireNonNull} does, it doesn't call.
     */
    void callAll(List<? extends ExpressionTree> arguments, Body body, Tree at, boolean once) {
        for (int k = 0; k < arguments.size(); k++) {
            ExpressionTree named = named(arguments.get(k));
            ExpressionTree bare = named != null ? named : Uses.bare(arguments.get(k));
            Part part = Part.NOTHING;
            compare(services.ownership().comparators().named(bare), body, at);
            if (!services.ownership().escape().isTaken(at, k) || services.ownership().comparators().isFollowed(bare)) {
                continue;
            } else if (bare instanceof LambdaExpressionTree lambda) {
                part = body.collect(() -> inline(lambda, body));
            } else if (bare instanceof MemberReferenceTree reference) {
                part = body.collect(() -> new Calls(services, body).reference(reference));
            } else if (services.program().find(services.attribution().type(bare)) != null) {
                part = body.collect(() -> new Comparisons(services, body).comparator(bare, at));
            } else if (isFunction(bare)) {
                part = unknown(bare, body);
            }
            Part further = body.collect(() -> new Pipelines(services, body).givenBy(bare));
            part = Part.sequence(List.of(part, further));
            if (!part.isNothing()) {
                body.emit(once ? new Part.Either(part, Part.NOTHING)
                    : new Part.Repeat(part, services.attribution().place(at)));
            }
        }
    }

    private Part unknown(ExpressionTree function, Body body) {
        TypeMirror type = services.attribution().type(function);
        String shown = "a function that isn't known";
        String why = "unknown call: a function that isn't known may do anything";
        return unknownCode.takesContents(type) ? services.doubt(Method.Doubt.ANY, shown, true, body, function, why)
            : services.brought(Method.Doubt.ANY, shown, type, function, why);
    }

    /** Writes the functions of a comparator, which are called any number of times; what they capture isn't known here. */
    void compare(List<ExpressionTree> functions, Body body, Tree at) {
        List<Part> all = new ArrayList<>();
        for (ExpressionTree each : functions) {
            new TreeScanner<Void, Void>() {
                @Override
                public Void visitIdentifier(IdentifierTree name, Void nothing) {
                    if (services.attribution().element(name) instanceof VariableElement local && !local.getKind().isField()) {
                        body.locals().putIfAbsent(local, Value.OPAQUE);
                    }
                    return null;
                }
            }.scan(each, null);
            all.add(body.collect(() -> inline(each, body)));
        }
        Part part = Part.sequence(all);
        if (!part.isNothing()) {
            body.emit(new Part.Repeat(part, services.attribution().place(at)));
        }
    }

    /** Whether an argument is an object with a function, which the call then calls; comparators are told as assumed. */
    boolean isFunction(ExpressionTree tree) {
        var type = services.attribution().type(tree);
        if (!(type instanceof javax.lang.model.type.DeclaredType declared)) {
            return false;
        }
        String name = ((javax.lang.model.element.TypeElement) declared.asElement()).getQualifiedName().toString();
        return name.startsWith("java.util.function.") || name.equals("java.lang.Runnable")
            || name.equals("java.util.concurrent.Callable");
    }
}
