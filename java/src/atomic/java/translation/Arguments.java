package atomic.java.translation;

import atomic.java.library.Choice;
import atomic.java.places.Notes;
import atomic.java.skeleton.Method;
import atomic.java.skeleton.Value;
import com.sun.source.tree.ExpressionTree;
import java.util.List;
import java.util.Set;
import javax.lang.model.element.TypeElement;
import javax.lang.model.type.TypeKind;
import javax.lang.model.type.TypeMirror;

/**
 * What a library's call looks at, or fills, among its arguments. Of an object that isn't safe by itself that is an
 * access of its contents. One that is safe by itself takes its own lock for each look, so that each look is a step
 * besides the call's own.
 */
final class Arguments {
    /** Classes whose methods look at the reference of an argument alone. */
    private static final Set<String> BARE = Set.of("Objects.", "Optional.", "Thread.", "System.", "Reference.");

    /** Calls that take all of a collection by its {@code toArray}. */
    private static final Set<String> BY_ARRAY = Set.of("List.copyOf", "new ArrayList", "new LinkedList", "new Vector",
        "new Stack", "new PriorityQueue", "new CopyOnWriteArrayList", "List.addAll", "ArrayList.addAll", "LinkedList.addAll",
        "Vector.addAll", "Stack.addAll", "CopyOnWriteArrayList.addAll");
    private static final Set<String> SNAPSHOTS = Set.of("java.util.concurrent.CopyOnWriteArrayList",
        "java.util.concurrent.CopyOnWriteArraySet");

    private final Services services;
    private final Body body;

    Arguments(Services services, Body body) {
        this.services = services;
        this.body = body;
    }

    /** Emits what a call looks at, or fills, among its arguments. */
    void lookAt(LibraryCalls.Called called, List<Value> values) {
        if (called.choice().kind() == Choice.Kind.UNKNOWN || called.choice().kind() == Choice.Kind.VIEW) {
            return;
        }
        if (called.choice().borrows() && !values.isEmpty() && values.get(0) instanceof Value.Owned) {
            services.tell(Notes.Kind.ASSUMED, body, called.at(), called.shown() + " keeps nothing of what it is given");
        }
        boolean handle = called.shown().startsWith("VarHandle.");
        for (int k = 0; k < values.size(); k++) {
            boolean fills = handle ? k == 0 : called.choice().fills() && k == filled(called);
            lookAt(called.arguments().get(k), values.get(k), fills, called);
        }
    }

    /** Of a copy the third argument is filled, of other calls the first. */
    private static int filled(LibraryCalls.Called called) {
        return called.shown().equals("System.arraycopy") || called.shown().endsWith(".getChars") ? 2 : 0;
    }

    private void lookAt(ExpressionTree argument, Value value, boolean fills, LibraryCalls.Called called) {
        TypeMirror type = services.attribution().type(argument);
        boolean puts = called.choice().kind() == Choice.Kind.WRITES || called.choice().kind() == Choice.Kind.STEP;
        boolean whole = called.shown().endsWith("All") || called.shown().endsWith("drainTo");
        if (type == null || type.getKind() == TypeKind.NULL || services.immutable(argument) != null
                || puts && !whole && !Comparisons.joins(called.shown()) && !(value instanceof Value.Owned)) {
            return;
        } else if (services.program().library().hasContents(type)) {
            new Contents(services, body).call(value, fills, called.at(), called.shown());
            if (type.getKind() == TypeKind.ARRAY && value instanceof Value.Owned && walks(called)) {
                new Contents(services, body).call(value, fills, called.at(), called.shown());
            }
        } else if (!(value instanceof Value.Fresh) && BARE.stream().noneMatch(called.shown()::startsWith)) {
            lookAtSafe(type, called);
        }
    }

    /**
     * Whether a call goes over the elements of an array, one after the other, as {@code Arrays.toString} does. Where only what
     * is sure counts, it may see them all at once.
     */
    private boolean walks(LibraryCalls.Called called) {
        boolean one = called.shown().startsWith("VarHandle.") || BARE.stream().anyMatch(called.shown()::startsWith)
            && !called.shown().equals("System.arraycopy");
        return !one && !services.program().sure();
    }

    /**
     * A collection that is safe by itself is looked at in one step where the table says so of {@code toArray}, and the call
     * takes that, or where its iterator walks over what was there at the beginning. Any other call walks over it, element by
     * element: {@code new HashSet<>(vector)}.
     */
    private void lookAtSafe(TypeMirror type, LibraryCalls.Called called) {
        if (type.toString().equals("java.lang.CharSequence")) {
            text(called);
            return;
        }
        boolean map = isBelow(type, "java.util.Map");
        if (!map && !isBelow(type, "java.util.Collection") || services.program().find(type) != null) {
            return;
        }
        Choice.Kind kind = services.program().library().choose(type, map ? "entrySet" : "toArray").kind();
        boolean whole = BY_ARRAY.contains(called.shown())
            || SNAPSHOTS.contains(services.attribution().types().erasure(type).toString());
        if (kind == Choice.Kind.STEP && whole) {
            body.emit(services.step(called.shown(), false, called.at()));
        } else if (kind != Choice.Kind.PURE) {
            body.emit(services.doubt(Method.Doubt.OPEN, called.shown(), true, body, called.at(),
                "compound library call: " + called.shown()
                    + " looks at many elements of its argument, one after the other"));
        }
    }

    /** A text of any kind may change meanwhile: that nobody changes it is told. */
    private void text(LibraryCalls.Called called) {
        if (services.program().options().strict()) {
            body.emit(services.doubt(Method.Doubt.OPEN, called.shown(), true, body, called.at(), "unknown call: the text that "
                + called.shown() + " is given may be changed meanwhile"));
        } else if (!Comparisons.joins(called.shown())) {
            services.tell(Notes.Kind.ASSUMED, body, called.at(), "nobody changes the text that " + called.shown() + " is given");
        }
    }

    private boolean isBelow(TypeMirror type, String name) {
        TypeElement wanted = services.attribution().elements().getTypeElement(name);
        var types = services.attribution().types();
        return wanted != null && !type.getKind().isPrimitive()
            && types.isSubtype(types.erasure(type), types.erasure(wanted.asType()));
    }
}
