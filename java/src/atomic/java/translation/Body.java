package atomic.java.translation;

import atomic.java.ownership.Escape;
import atomic.java.program.JavaClass;
import atomic.java.program.JavaMethod;
import atomic.java.skeleton.Field;
import atomic.java.skeleton.Method;
import atomic.java.skeleton.Part;
import atomic.java.skeleton.Path;
import atomic.java.skeleton.Shape;
import atomic.java.skeleton.Value;
import java.util.ArrayList;
import java.util.HashMap;
import java.util.HashSet;
import java.util.List;
import java.util.Map;
import java.util.Set;
import javax.lang.model.element.Element;
import javax.lang.model.element.VariableElement;

/** A method of the skeleton while it is written: its object, its locals, and the parts so far. */
final class Body {

    /** Whose body it is: the class whose code it has, its own object, and the Java method that it is told of. */
    record Owner(JavaClass self, Value me, Object origin) { }

    private final Services services;
    private final Method target;
    private final Owner owner;
    private final long freshUntil;
    private final Map<VariableElement, Value> locals = new HashMap<>();
    private Set<VariableElement> stable = Set.of();
    private final Set<String> taken = new HashSet<>();
    private final Set<VariableElement> flags = new HashSet<>();
    private final Leavings leavings;
    private Value element = Value.OPAQUE;
    private List<Part> sink = new ArrayList<>();
    private int depth;
    private int size;
    private JavaClass starting;
    private boolean locksSomehow;
    private final List<Path> monitors = new ArrayList<>();

    /** A body of {@code target}; up to the offset {@code freshUntil} no other thread knows its object. */
    Body(Services services, Method target, Owner owner, long freshUntil) {
        this.services = services;
        this.target = target;
        this.owner = owner;
        this.freshUntil = freshUntil;
        leavings = new Leavings(services);
        target.parameters().forEach(each -> taken.add(each.name()));
    }

    /** What is done while the monitor of an object is held, as one part. */
    Part holding(Path monitor, Runnable work) {
        monitors.add(monitor);
        Part part = collect(work);
        monitors.remove(monitors.size() - 1);
        return part;
    }

    /** Whether the monitor of an object is held here. */
    boolean holds(Path monitor) {
        return monitor != null && monitors.contains(monitor);
    }

    /** A lock is taken here in no form that is known. */
    void locksSomehow() {
        locksSomehow = true;
    }

    /** Whether a lock may be held anywhere here, since one is taken in no form that is known. */
    boolean mayHoldAny() {
        return locksSomehow;
    }

    /** This body is the static initialiser of a class, whose static fields nobody else knows yet. */
    void start(JavaClass begun) {
        starting = begun;
    }

    JavaClass starting() {
        return starting;
    }

    Method target() {
        return target;
    }

    JavaClass self() {
        return owner.self();
    }

    Object origin() {
        return owner.origin();
    }

    Map<VariableElement, Value> locals() {
        return locals;
    }

    /** The fields that are known to keep their value from here on, so that a look at one is no step. */
    Set<VariableElement> stable() {
        return stable;
    }

    void stable(Set<VariableElement> fields) {
        stable = fields;
    }

    /** The branches that leave loops. */
    Leavings leavings() {
        return leavings;
    }

    /** Whether a flag that never goes back was looked at before in this body; from here on it was. */
    boolean looksAgain(VariableElement flag) {
        return !flags.add(flag);
    }

    /** What the entries of the map are a part of whose functions are written now. */
    Value element() {
        return element;
    }

    /** Writes functions that a call on this object calls. */
    void over(Value object, Runnable work) {
        Value before = element;
        element = object;
        try {
            work.run();
        } finally {
            element = before;
        }
    }

    void emit(Part part) {
        if (!part.isNothing()) {
            sink.add(part);
            size++;
        }
    }

    /** How many parts were written so far. */
    int size() {
        return size;
    }

    /** What {@code work} emits, as one part. */
    Part collect(Runnable work) {
        List<Part> before = sink;
        sink = new ArrayList<>();
        depth++;
        try {
            work.run();
            return Part.sequence(sink);
        } finally {
            depth--;
            sink = before;
        }
    }

    /** How deeply the part that is written now is nested. */
    int depth() {
        return depth;
    }

    /** The method's own object, at an offset of the source; null in static code. */
    Value me(long offset) {
        boolean fresh = owner.me() != null && offset < freshUntil;
        if (!fresh) {
            return owner.me();
        }
        Value fromHere = new Value.Fresh(owner.me().type());
        return owner.me() instanceof Value.Node ? new Value.Node(fromHere) : fromHere;
    }

    boolean isFresh() {
        return freshUntil != 0;
    }

    /** The object of the class {@code wanted} that code of this class means: its own, or one around it; else null. */
    Value object(JavaClass wanted, long offset) {
        Value value = me(offset);
        JavaClass current = owner.self();
        while (current != null && value != null && current != wanted
                && !services.families().isBelow(current, wanted)) {
            value = around(current, current == owner.self() && isConstructor() ? owner.me() : value);
            current = current.outer();
        }
        return current == null ? null : value;
    }

    /** The object that has a member of a library's class: this one, or one around it that is of that class. */
    Value inheriting(Element home, long offset) {
        JavaClass heir = heir(home);
        return heir == null ? null : object(heir, offset);
    }

    /** The innermost class around this code that is below a library's class. */
    JavaClass heir(Element home) {
        var types = services.attribution().types();
        JavaClass each = owner.self();
        while (each != null && !types.isSubtype(types.erasure(each.symbol().asType()), types.erasure(home.asType()))) {
            each = each.outer();
        }
        return each;
    }

    /** Whether this is a constructor: the object around a new one isn't new itself. */
    private boolean isConstructor() {
        return owner.origin() instanceof JavaMethod method && method.isConstructor() && method.owner() == owner.self();
    }

    private Value around(JavaClass inner, Value value) {
        if (value instanceof Value.Node node) {
            return node.container();
        } else if (!inner.hasOuterObject()) {
            return null;
        }
        JavaClass outer = inner.outer();
        JavaClass container = services.nodes().container(outer);
        Shape shape = container == null ? outer.shape() : container.shape();
        Field step = services.fields().outerOf(inner.shape(), shape);
        Value found = value.path() != null && value.path().hasRoom() ? new Value.Named(value.path().then(step))
            : new Value.Opaque(shape);
        return container == null ? found : new Value.Node(found);
    }

    /** The object that leads to all statics. */
    Path statics() {
        Shape shape = services.program().statics();
        return Path.of(target.owner() == shape ? new Path.Root(Path.Kind.THIS, "this", shape)
            : new Path.Root(Path.Kind.PARAMETER, "S", shape));
    }

    /** A name for a local that no other local of this method has. */
    String local(String java) {
        String name = services.program().names().plain(java);
        if (!taken.add(name)) {
            name = services.program().names().invent(java, java);
            taken.add(name);
        }
        return name;
    }

    /** Declares a final local of a class, and gives it as a value. */
    Value declare(String java, Shape shape) {
        Path.Root root = new Path.Root(Path.Kind.LOCAL, local(java), shape);
        emit(new Part.Local(root, null));
        return new Value.Named(Path.of(root));
    }

    /** A local that is assigned again, so that it names nothing. */
    Value declareLoose(String java, Shape shape) {
        Path.Root root = new Path.Root(Path.Kind.LOCAL, local(java), shape);
        target.loose().add(root);
        return new Value.Loose(root);
    }

    /** The value of a captured variable: a final field of this class's objects, or of the function's. */
    Value captured(VariableElement variable) {
        Shape shape = services.families().shape(variable.asType());
        if (shape == null || target.owner() == services.program().statics()) {
            return Value.OPAQUE;
        }
        Value known = locals.get(variable);
        if (known == null) {
            String java = variable.getSimpleName().toString();
            Field field = new Field(target.owner(), services.program().names().invent(java, "=" + java), shape, true);
            target.owner().add(field);
            known = new Value.Named(Path.of(new Path.Root(Path.Kind.THIS, "this", target.owner())).then(field));
            locals.put(variable, known);
        }
        return known;
    }

    /** Whether the object in a local is still known to this method alone. */
    boolean isFreshAt(VariableElement local, long offset) {
        long escapes = services.ownership().escapes(local);
        return escapes == Escape.NEVER || offset < escapes;
    }
}
