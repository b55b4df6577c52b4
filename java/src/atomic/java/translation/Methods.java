package atomic.java.translation;

import atomic.java.program.Families;
import atomic.java.program.JavaClass;
import atomic.java.program.JavaMethod;
import atomic.java.program.Program;
import atomic.java.skeleton.Method;
import atomic.java.skeleton.Part;
import atomic.java.skeleton.Path;
import atomic.java.skeleton.Place;
import atomic.java.skeleton.Shape;
import atomic.java.skeleton.Value;
import com.sun.source.tree.BlockTree;
import java.util.ArrayDeque;
import java.util.ArrayList;
import java.util.Deque;
import java.util.HashMap;
import java.util.LinkedHashMap;
import java.util.LinkedHashSet;
import java.util.List;
import java.util.Map;
import java.util.Set;
import java.util.TreeMap;
import java.util.TreeSet;
import javax.lang.model.element.Modifier;
import javax.lang.model.element.VariableElement;

/**
 * The methods of the skeleton. Each Java method has one; more of the same code are made where a constructor or another
 * holder of a new object calls it, and where a class has it by {@code super} or from an interface.
 */
public final class Methods {

    /** Whose object runs a method's code, and whether nobody else knows that object yet. */
    private record Key(JavaMethod method, JavaClass self, boolean fresh) { }

    private final Services services;
    private final Families families;
    private final Promises promises;
    private final Map<Key, Method> known = new LinkedHashMap<>();
    private final Map<Method, JavaMethod> judged = new LinkedHashMap<>();
    private final Map<Method, Object> origins = new LinkedHashMap<>();
    private final Map<JavaClass, Method> initialisers = new HashMap<>();
    private final Set<Method> alone = new LinkedHashSet<>();
    private final Set<JavaMethod> onlyOfNew = new LinkedHashSet<>();
    private final Map<Place, Place> repeats = new TreeMap<>();
    private final Set<Place> helpers = new TreeSet<>();
    private final Deque<Runnable> waiting = new ArrayDeque<>();
    private final Deque<Runnable> last = new ArrayDeque<>();

    public Methods(Program program) {
        services = new Services(program, this);
        families = services.families();
        promises = new Promises(program, families);
    }

    /** Writes the whole skeleton. */
    public void translate() {
        services.program().classes().stream().flatMap(each -> List.copyOf(each.methods()).stream()).forEach(method -> {
            of(method, method.owner(), method.isConstructor() || method.readsNewObject());
            promises.apart(method).forEach(heir -> of(method, heir, false));
        });
        while (!waiting.isEmpty() || !last.isEmpty()) {
            (waiting.isEmpty() ? last : waiting).remove().run();
        }
        services.finish(origins.keySet());
    }

    /** The Java method of each method that is judged for its own sake. */
    public Map<Method, JavaMethod> judged() {
        return judged;
    }

    /** Of the methods that are called on new objects too, each with the one for these. */
    public Map<Method, Method> forNew() {
        Map<Method, Method> found = new LinkedHashMap<>();
        known.forEach((key, made) -> {
            Method own = key.fresh() && !key.method().isConstructor()
                ? known.get(new Key(key.method(), key.self(), false)) : null;
            if (own != null) {
                found.put(own, made);
            }
        });
        return found;
    }

    /** These are called on new objects alone: the methods for such are judged in their place. */
    public void judgeAsNew(Set<Method> unused) {
        Map<Method, Method> others = forNew();
        for (Method each : unused) {
            JavaMethod java = judged.remove(each);
            if (java != null) {
                judged.put(others.get(each), java);
                onlyOfNew.add(java);
            }
        }
        services.program().shapes().forEach(shape -> shape.methods().removeIf(unused::contains));
    }

    /** The Java methods that are called on new objects alone. */
    public Set<JavaMethod> onlyOfNew() {
        return onlyOfNew;
    }

    /** All methods that stand for code of the sources. */
    public Set<Method> written() {
        return origins.keySet();
    }

    /** The methods that are judged: the Java methods, and the functions that run by themselves. */
    public Set<Method> roots() {
        Set<Method> all = new LinkedHashSet<>(judged.keySet());
        all.addAll(alone);
        return all;
    }

    /** Those of them that other threads may begin with. */
    public Set<Method> callable() {
        Set<Method> all = roots();
        all.removeIf(each -> judged.containsKey(each) && !judged.get(each).isCallable());
        return all;
    }

    /** Whether a method gives its caller nothing. */
    public boolean givesNothing(Method method) {
        return judged.containsKey(method) && judged.get(method).givesNothing();
    }

    /** Whether a Java method says that it is atomic. */
    public boolean promises(JavaMethod method) {
        return promises.isAsked(method);
    }

    /** Whether some field says which lock guards it. */
    public boolean namesGuards() {
        return services.fields().guards().areNamed();
    }

    /** The Java method that things noted of a method are noted of. */
    public Object origin(Method method) {
        return origins.get(method);
    }

    /** The call that a wait becomes which others can see. */
    public Part.Call wait(Place place) {
        return several("Object.wait", place);
    }

    /** A call of what is several steps, and is called {@code shown}. */
    public Part.Call several(String shown, Place place) {
        return services.several(shown, place);
    }

    /** A look, or an attempt that failed, that is no step where the second place is next; everywhere if that is the same. */
    void repeats(Place look, Place again) {
        repeats.put(look, again);
    }

    /** The places of steps that don't count where another one follows, each with the place of that. */
    public Map<Place, Place> repeats() {
        return repeats;
    }

    /** A method whose body is written where it is called. */
    void helper(Place method) {
        helpers.add(method);
    }

    /** The places of such methods. */
    public Set<Place> helpers() {
        return helpers;
    }

    /** A function that is judged by itself. */
    void judgeAlone(Method method, Object java) {
        alone.add(method);
        origins.put(method, java);
    }

    void later(Runnable work) {
        waiting.add(work);
    }

    /** The method that stands for a Java method as its own class has it, and as it is called. */
    Method of(JavaMethod method) {
        return of(method, method.owner(), method.isConstructor());
    }

    /** The method for objects of class {@code self}, which may be new ones that nobody else knows. */
    Method of(JavaMethod method, JavaClass self, boolean fresh) {
        Key key = new Key(method, method.isStatic() ? method.owner() : self, fresh);
        Method made = known.get(key);
        if (made == null) {
            made = make(key);
            known.put(key, made);
            Method target = made;
            boolean dispatches = method.isAbstract() || method.owner().isInterface();
            (dispatches ? last : waiting).add(() -> write(key, target));
        }
        return made;
    }

    /** The method that stands for the static initialisers of a class. */
    Method initialiser(JavaClass each) {
        Method made = initialisers.get(each);
        if (made == null) {
            String shown = services.program().names().shown(each.shape().name());
            made = new Method(services.program().statics(), services.program().names().invent("init_" + shown,
                "=the static initialiser of " + shown), each.shape().place());
            services.program().statics().methods().add(made);
            made.closed(true);
            initialisers.put(each, made);
            origins.put(made, each);
            Method target = made;
            later(() -> new Initialisers(services).write(each, target));
        }
        return made;
    }

    private Method make(Key key) {
        JavaMethod method = key.method();
        JavaClass container = services.nodes().container(key.self());
        Shape home = method.isStatic() ? services.program().statics() : (container == null ? key.self() : container).shape();
        boolean own = !key.fresh() && key.self() == method.owner();
        boolean inherited = isInherited(key);
        Place place = method.place();
        Method made = new Method(home, inherited ? inherited(key) : name(key, own, container), place);
        made.parameters().addAll(parameters(method, home));
        home.methods().add(made);
        origins.put(made, method);
        boolean bySuper = key.self() != method.owner() && !method.owner().isInterface() && !inherited;
        boolean known = !method.isOpen() || method.isForHeirs() && !services.program().options().strict();
        made.closed(known || key.fresh() || container != null || bySuper);
        made.wrapped(services.ownership().wrapped().is(method.owner()));
        if (own && promises.apart(method).isEmpty() || inherited || method.isConstructor() || method.readsNewObject()) {
            judged.put(made, method);
        }
        if (own && !method.isStatic() && container == null) {
            families.overridden(method).forEach(above -> made.overridden().add(of(above)));
        }
        return made;
    }

    /** Whether a method is judged as that of a class which has it from its hidden base. */
    private boolean isInherited(Key key) {
        return !key.fresh() && promises.apart(key.method()).contains(key.self());
    }

    /** The name of such a method: it is told in that of the class. */
    private String inherited(Key key) {
        String java = key.method().symbol().getSimpleName().toString();
        return services.program().names().invent(java + "_of_heir",
            "=" + services.program().names().shown(key.self().shape().name()) + "." + java);
    }

    private String name(Key key, boolean own, JavaClass container) {
        JavaMethod method = key.method();
        String java = method.symbol().getSimpleName().toString();
        String shape = services.program().names().shown(method.owner().shape().name());
        if (method.isConstructor()) {
            return services.program().names().invent("new_" + shape, "=new " + shape);
        } else if (method.isStatic() || container != null) {
            return services.program().names().invent(shape + "_" + java, "=" + shape + "." + java);
        }
        boolean inherited = !key.fresh() && method.owner().isInterface() && key.self() != method.owner();
        return own ? families.name(method) : services.program().names().invent(
            java + (key.fresh() ? "_of_new" : inherited ? "_inherited" : "_of_super"), "=" + shape + "." + java);
    }

    private List<Path.Root> parameters(JavaMethod method, Shape home) {
        List<Path.Root> roots = new ArrayList<>();
        if (home != services.program().statics()) {
            roots.add(new Path.Root(Path.Kind.PARAMETER, "S", services.program().statics()));
        }
        families.parameters(method).forEach((variable, shape) -> {
            String wish = variable.getSimpleName().toString();
            String name = services.program().names().plain(wish);
            boolean twice = roots.stream().anyMatch(each -> each.name().equals(name));
            roots.add(new Path.Root(Path.Kind.PARAMETER, twice ? services.program().names().invent(wish, wish) : name,
                shape));
        });
        return roots;
    }

    private void write(Key key, Method target) {
        JavaMethod method = key.method();
        long freshUntil = !key.fresh() ? 0 : services.ownership().escape().selves().from(method);
        Value me = method.isStatic() ? null : me(key.self(), target.owner());
        Body body = new Body(services, target, new Body.Owner(key.self(), me, method), freshUntil);
        require(method, body);
        write(key, target, body);
        if (promises.isAtomic(method) || isInherited(key)) {
            promise(target, promises.isAtomic(families.root(method)));
        }
    }

    private void write(Key key, Method target, Body body) {
        JavaMethod method = key.method();
        if (method.tree().getBody() == null) {
            target.body(new Dispatch(services).body(method, key.self(), body));
            return;
        } else if (key.self() == method.owner() && families.isAlwaysReplaced(method)
                || services.program().sure() && new Locking(services, body).givesBack(method.tree().getBody())) {
            return;
        }
        Statements statements = new Statements(services, body);
        target.body(body.collect(() -> {
            bindParameters(method, body);
            if (method.isConstructor() && !Initialisers.callsAnother(method.tree())) {
                new Initialisers(services).run(method.owner(), body);
            }
            synchronizedBody(method, body, statements);
        }));
        if (services.program().sure() && body.mayHoldAny()) {
            target.body(Part.NOTHING);
        }
        if (method.owner().isInterface() && key.self() == method.owner() && !method.isStatic()) {
            target.body(new Dispatch(services).join(target.body(), method, key.self(), body));
        }
    }

    /** A promise that the overridden method doesn't give stands with a second method of the same body. */
    private void promise(Method target, boolean byAll) {
        if (byAll || target.overridden().isEmpty()) {
            target.promiseAtomic();
            return;
        }
        Method alone = copy(target);
        alone.promiseAtomic();
        judgeAlone(alone, origins.get(target));
    }

    /** A second method of the same body, which isn't judged for its own sake. */
    public Method copy(Method target) {
        String java = services.program().names().shown(target.name());
        Method copy = new Method(target.owner(), services.program().names().invent(java, java), target.place());
        copy.parameters().addAll(target.parameters());
        copy.required().addAll(target.required());
        copy.loose().addAll(target.loose());
        copy.body(target.body());
        target.owner().methods().add(copy);
        origins.put(copy, origins.get(target));
        return copy;
    }

    /** Writes a method's statements, with the lock around them that it takes. */
    void synchronizedBody(JavaMethod method, Body body, Statements statements) {
        BlockTree block = method.tree().getBody();
        if (!method.symbol().getModifiers().contains(Modifier.SYNCHRONIZED)) {
            statements.all(block.getStatements());
            return;
        }
        Value me = body.me(services.attribution().start(block));
        Path lock = method.isStatic() ? services.fields().classLock(method.owner(), body.statics())
            : services.fields().isLock(body.self().symbol().asType()) ? null : me.path();
        Part inside = body.collect(() -> statements.all(block.getStatements()));
        body.emit(me instanceof Value.Fresh ? inside
            : new Part.Region(lock, Part.Mode.EXCLUSIVE, inside, method.place()));
    }

    private Value me(JavaClass self, Shape home) {
        Value here = new Value.Named(Path.of(new Path.Root(Path.Kind.THIS, "this", home)));
        return services.nodes().container(self) == null ? here : new Value.Node(here);
    }

    /** What each parameter stands for in the body: itself where it keeps its value. */
    private void bindParameters(JavaMethod method, Body body) {
        int at = body.target().owner() == services.program().statics() ? 0 : 1;
        for (VariableElement variable : families.parameters(method).keySet()) {
            Path.Root root = body.target().parameters().get(at++);
            Shape own = families.shape(variable.asType());
            JavaClass node = services.program().find(variable.asType());
            if (services.nodes().container(node) != null) {
                body.locals().put(variable, Value.OPAQUE);
            } else if (own != null && services.uses().isSettled(variable)) {
                body.locals().put(variable, root.type().fits(own) ? new Value.Named(Path.of(root))
                    : body.declare(variable.getSimpleName().toString(), own));
            } else if (own != null && own != services.program().object()) {
                body.locals().put(variable, body.declareLoose(variable.getSimpleName().toString(), own));
            }
        }
        method.symbol().getParameters().forEach(each -> body.locals().putIfAbsent(each,
            services.ownership().made(each) != null ? new Value.Given(each.getSimpleName().toString()) : Value.OPAQUE));
    }

    /** The locks that the annotations of the method, or of the one that it overrides, say that its callers hold. */
    private void require(JavaMethod method, Body body) {
        JavaMethod root = families.root(method);
        for (String word : services.fields().guards().required(root.symbol())) {
            new Requirements(services).add(word, root, body);
        }
        new Requirements(services).addWrappers(method, body);
    }

    Services services() {
        return services;
    }
}
