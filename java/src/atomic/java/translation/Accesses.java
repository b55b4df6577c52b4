package atomic.java.translation;

import atomic.java.ownership.Escape;
import atomic.java.ownership.Uses;
import atomic.java.places.Notes;
import atomic.java.program.Families;
import atomic.java.program.JavaClass;
import atomic.java.skeleton.Field;
import atomic.java.skeleton.Method;
import atomic.java.skeleton.Part;
import atomic.java.skeleton.Path;
import atomic.java.skeleton.Value;
import com.sun.source.tree.ArrayAccessTree;
import com.sun.source.tree.ExpressionTree;
import com.sun.source.tree.IdentifierTree;
import com.sun.source.tree.MemberSelectTree;
import com.sun.source.tree.Tree;
import javax.lang.model.element.Element;
import javax.lang.model.element.Modifier;
import javax.lang.model.element.VariableElement;
import javax.lang.model.util.ElementFilter;

/** Reads and writes of fields. */
final class Accesses {
    private final Services services;
    private final Body body;

    Accesses(Services services, Body body) {
        this.services = services;
        this.body = body;
    }

    /** The object whose field is meant where none is written; null for a static field. */
    Value implicit(VariableElement field, long offset) {
        if (Families.isStatic(field)) {
            return null;
        }
        JavaClass owner = services.program().find(field.getEnclosingElement());
        return owner == null ? body.inheriting(field.getEnclosingElement(), offset) : body.object(owner, offset);
    }

    /** The object before the dot; its steps are emitted. */
    Value receiver(MemberSelectTree tree, VariableElement field, Expressions expressions) {
        if (Families.isStatic(field)) {
            Element symbol = services.attribution().element(tree.getExpression());
            if (symbol instanceof VariableElement) {
                expressions.value(tree.getExpression());
            }
            return null;
        }
        return expressions.value(tree.getExpression());
    }

    private static boolean isOwn(Tree at) {
        return at instanceof IdentifierTree || at instanceof MemberSelectTree select
            && (Uses.isName(select.getExpression(), "this"));
    }

    /** Reads a field; what it holds. */
    Value read(VariableElement field, Value receiver, Tree at) {
        start(field, at);
        if (services.program().find(field.getEnclosingElement()) == null) {
            return foreign(field, receiver, false, at);
        } else if (field.getConstantValue() != null || field.getKind() == javax.lang.model.element.ElementKind.ENUM_CONSTANT) {
            return Value.OPAQUE;
        }
        VariableElement root = services.ownership().holding(field);
        if (root != null && root != field) {
            passing(field, receiver, at);
            return confined(root, services.attribution().start(at));
        }
        VariableElement source = LockViews.source(field, services.fields());
        boolean settled = services.fields().isSettled(source);
        boolean owned = services.fields().owns(field);
        if (!owned) {
            services.exits().leave(field, at, body);
        }
        if (settled && !owned && services.immutables().isGiven(source)) {
            return services.fields().unchanging(source);
        } else if (settled && !owned && services.families().shape(source.asType()) == null) {
            return Value.OPAQUE;
        }
        Fields.Home home = services.fields().home(source);
        Value holder = holder(source, home, receiver);
        look(field, home, holder, settled, at);
        if (owned) {
            Path own = settled && home.field().type() != null ? behind(holder, home.field()).path() : null;
            return owned(field, receiver, own, at);
        }
        return settled ? behind(holder, home.field()) : new Value.Opaque(home.field().type());
    }

    /** The look at a field itself, where it is a step. */
    private void look(VariableElement field, Fields.Home home, Value holder, boolean settled, Tree at) {
        if (body.stable().contains(field) && isOwn(at)) {
            services.methods().repeats(services.attribution().name(at), services.attribution().name(at));
        } else if (!settled && !(looksAgain(field, at) && services.program().sure()) && !isStable(field, at)
                && !services.cursors().leavesOut(field, home.field(), at)) {
            access(holder, home.field(), false, at);
            new Versions(services).note(field, false, at);
            new Lazies(services).note(field, false, at);
        }
    }

    /** What a field holds whose contents are its own. */
    private Value owned(VariableElement field, Value receiver, Path own, Tree at) {
        Fields.Home contents = services.fields().contents(field);
        Value inside = holder(field, contents, receiver);
        services.exits().write(field, at, body);
        if (inside instanceof Value.Fresh) {
            services.functions().compare(services.fields().comparing(contents.field()), body, at);
            return new Value.Fresh(null);
        }
        return new Value.Owned(inside, contents.field(), own);
    }

    /** Whether this is a second look at a flag that never goes back, which may tell nothing new; that is told. */
    private boolean looksAgain(VariableElement field, Tree at) {
        boolean again = isOwn(at) && new Flags(services).never(field) && body.looksAgain(field);
        if (again) {
            services.tell(Notes.Kind.APPROXIMATED, body, at, "second look: " + field.getSimpleName()
                + " never goes back, so this look may tell nothing new, and counts as a step all the same");
        }
        return again;
    }

    /**
     * Whether a field is given an object once, or the same each time, and only what is certain counts: a look at it may tell
     * the same later.
     */
    private boolean isStable(VariableElement field, Tree at) {
        boolean kept = new Caches(services).keeps(field);
        boolean filled = new StableLooks(services).isTestOfFilled(field, at);
        boolean once = kept || filled || new StableLooks(services).isSetOnce(field);
        if (kept) {
            services.hint(at, "cache: what " + field.getSimpleName() + " keeps is computed from final fields alone, so that each"
                + " thread computes the same; each counts as a step all the same");
        } else if (filled) {
            services.hint(at, "stable look: " + field.getSimpleName() + " never becomes empty again, so that a value which a look"
                + " has found is there later too; each counts as a step all the same");
        } else if (once) {
            services.hint(at, "stable look: " + field.getSimpleName() + " is set once, so that what a look has found stays so,"
                + " and its setting may show nowhere; each counts as a step all the same");
        }
        return once && services.program().sure();
    }

    /** Reads a field that has the object of another one, of an object around. */
    private void passing(VariableElement field, Value receiver, Tree at) {
        if (!services.fields().isSettled(field)) {
            Fields.Home home = services.fields().home(field);
            access(holder(field, home, receiver), home.field(), false, at);
        }
    }

    /** The object of a field under another name; where there is no {@code this}, who calls has written its accesses. */
    Value confined(VariableElement field, long offset) {
        JavaClass home = services.program().find(field.getEnclosingElement());
        Value object = body.object(home, offset);
        if (object == null && body.self() == home) {
            return new Value.Fresh(null);
        }
        Fields.Home contents = services.fields().contents(field);
        Value inside = holder(field, contents, object == null ? new Value.Opaque(home.shape()) : object);
        return inside instanceof Value.Fresh ? new Value.Fresh(null) : new Value.Owned(inside, contents.field(), null);
    }

    private Value behind(Value holder, Field field) {
        Path path = holder.path();
        if (!field.fixed() || path == null || field.type() == null) {
            return new Value.Opaque(field.type());
        } else if (path.hasRoom()) {
            return new Value.Named(path.then(field));
        }
        Path.Root root = new Path.Root(Path.Kind.LOCAL, body.local(field.name()), path.type());
        body.emit(new Part.Local(root, path));
        return new Value.Named(Path.of(root).then(field));
    }

    /** The object in the skeleton that has the field. */
    private Value holder(VariableElement field, Fields.Home home, Value receiver) {
        JavaClass owner = services.program().find(field.getEnclosingElement());
        if (home.holder() == Fields.Holder.STATICS) {
            return owner == body.starting() && Families.isStatic(field) ? new Value.Fresh(null) : new Value.Named(body.statics().then(services.fields().staticsOf(owner)));
        } else if (home.holder() == Fields.Holder.CONTAINER) {
            return receiver instanceof Value.Node node ? node.container() : receiver instanceof Value.Fresh ? receiver
                : new Value.Opaque(home.field().owner());
        }
        boolean fits = receiver != null && receiver.type() != null && receiver.type().fits(home.field().owner())
            && !(receiver instanceof Value.Node);
        return fits ? receiver : receiver instanceof Value.Fresh ? receiver : new Value.Opaque(home.field().owner());
    }

    private void access(Value holder, Field field, boolean write, Tree at) {
        if (!(holder instanceof Value.Fresh)) {
            body.emit(new Part.Access(holder, field, write, services.attribution().name(at)));
        }
    }

    /** The use of a static field may be the first one of its class. */
    private void start(VariableElement field, Tree at) {
        if (Families.isStatic(field) && field.getConstantValue() == null) {
            new Initialisers(services).start(services.program().find(field.getEnclosingElement()), body, at);
        }
    }

    /** Writes a field. */
    private void write(VariableElement field, Value receiver, Tree at) {
        if (services.program().find(field.getEnclosingElement()) == null) {
            foreign(field, receiver, true, at);
        } else if (!services.fields().isSettled(field)) {
            Fields.Home home = services.fields().home(field);
            if (!isStable(field, at) && !services.cursors().leavesOut(field, home.field(), at)) {
                access(holder(field, home, receiver), home.field(), true, at);
                new Versions(services).note(field, true, at);
                new Lazies(services).note(field, true, at);
                new Flags(services).note(field, at);
            }
        }
    }

    /** A field of a library's class: one of this object's own where it is inherited, else a step. */
    private Value foreign(VariableElement field, Value receiver, boolean write, Tree at) {
        if (field.getModifiers().contains(Modifier.FINAL) || receiver instanceof Value.Fresh) {
            return Value.OPAQUE;
        }
        JavaClass heir = receiver == null || receiver.path() == null || receiver.type() == null ? null
            : services.program().find(receiver.type());
        if (heir != null && services.nodes().container(heir) == null && isNeverAssigned(field)) {
            services.tell(Notes.Kind.ASSUMED, body, at, "nobody assigns " + field.getSimpleName() + " of "
                + field.getEnclosingElement().getSimpleName() + " once its object is made");
            return behind(receiver, services.fields().inherited(field, heir, services.families().shape(field.asType())));
        } else if (heir != null && services.nodes().container(heir) == null) {
            access(receiver, services.fields().inherited(field, heir, null), write, at);
            return Value.OPAQUE;
        }
        String shown = field.getEnclosingElement().getSimpleName() + "." + field.getSimpleName();
        body.emit(services.doubt(Method.Doubt.ANY, shown, false, body, at, "a field of a library's class counts as one that nothing guards"));
        return Value.OPAQUE;
    }

    /** Whether a library's field with an object that may be a lock, such as {@code Writer.lock}, keeps that here. */
    private boolean isNeverAssigned(VariableElement field) {
        return services.uses().assignments(field).isEmpty() && services.families().shape(field.asType()) != null
            && !services.program().library().hasContents(field.asType()) && !services.program().options().strict();
    }

    /** An assignment: the target's object, a read where the old value is wanted, the value, and the write. */
    Value assign(ExpressionTree written, ExpressionTree value, boolean reads, Expressions expressions) {
        ExpressionTree target = Uses.bare(written);
        if (target instanceof ArrayAccessTree element) {
            Value array = expressions.value(element.getExpression());
            expressions.value(element.getIndex());
            Contents contents = new Contents(services, body);
            if (reads) {
                contents.element(array, false, element);
            }
            Value result = expressions.value(value);
            contents.element(array, true, element);
            return result;
        }
        if (!(services.attribution().element(target) instanceof VariableElement variable) || !variable.getKind().isField()) {
            Value result = expressions.value(value);
            new Locals(services, body).assign(services.attribution().element(target), result);
            return result;
        }
        Value receiver = target instanceof MemberSelectTree select ? receiver(select, variable, expressions)
            : implicit(variable, services.attribution().start(target));
        if (reads) {
            read(variable, receiver, target);
        }
        Value result = expressions.value(value);
        start(variable, target);
        // What is assigned may let the object go, and is computed before.
        boolean begins = receiver instanceof Value.Fresh && isOwn(target) && value != null;
        write(variable, begins ? implicit(variable, services.attribution().end(value)) : receiver, target);
        return result;
    }

    /** Writes a field before its class's constructors run, where others may know the object by then. */
    void begin(VariableElement field, Tree at) {
        JavaClass owner = services.program().find(field.getEnclosingElement());
        if (!Families.isStatic(field) && !services.fields().isSettled(field)
                && services.ownership().escape().selves().isKnownBefore(at, at, owner)) {
            write(field, implicit(field, Escape.NEVER), at);
        }
    }

    /** The parts of a record that its constructor sets at the end, where others may know it by then. */
    void parts(JavaClass record) {
        for (VariableElement field : ElementFilter.fieldsIn(record.symbol().getEnclosedElements())) {
            if (!Families.isStatic(field) && !services.fields().isSettled(field)) {
                write(field, implicit(field, Escape.NEVER), record.tree());
            }
        }
    }
}
