package atomic.java.translation;

import atomic.java.library.Choice;
import atomic.java.ownership.Uses;
import atomic.java.places.Notes;
import atomic.java.program.JavaClass;
import atomic.java.program.JavaMethod;
import atomic.java.skeleton.Part;
import atomic.java.skeleton.Value;
import com.sun.source.tree.ExpressionTree;
import com.sun.source.tree.MemberSelectTree;
import com.sun.source.tree.MethodInvocationTree;
import com.sun.source.tree.NewClassTree;
import com.sun.source.tree.Tree;
import com.sun.source.tree.TypeCastTree;
import java.util.ArrayList;
import java.util.List;
import java.util.Set;
import javax.lang.model.element.Element;
import javax.lang.model.element.ExecutableElement;
import javax.lang.model.element.Modifier;
import javax.lang.model.element.TypeElement;
import javax.lang.model.element.VariableElement;
import javax.lang.model.type.ArrayType;
import javax.lang.model.type.DeclaredType;
import javax.lang.model.type.TypeMirror;

/**
 * What a library's call may call of an object of a class at hand that it is given: the methods that this class has in place
 * of those of the parameter's type, any number of times. {@code text.contains(this)} calls {@code charAt} where the class is
 * a {@code CharSequence}. A parameter of any type, such as that of {@code add}, tells nothing that could be called. What a
 * call only keeps is called by others.
 */
final class Callbacks {
    /** Library classes whose texts and comparisons are made of what their other methods give. */
    private static final Set<String> MAKING = Set.of("java.util.AbstractCollection", "java.util.AbstractList",
        "java.util.AbstractSet", "java.util.AbstractMap");

    private final Services services;
    private final Body body;

    Callbacks(Services services, Body body) {
        this.services = services;
        this.body = body;
    }

    /** An expression without the casts around it. */
    static ExpressionTree written(ExpressionTree tree) {
        ExpressionTree bare = Uses.bare(tree);
        return bare instanceof TypeCastTree cast ? written(cast.getExpression()) : bare;
    }

    /** Writes what a call may call of its arguments, and of its object. */
    void write(LibraryCalls.Called called) {
        if (!(services.attribution().element(called.at()) instanceof ExecutableElement symbol)) {
            return;
        }
        compared(called, symbol);
        inPlace(called, symbol);
        wrapped(called, symbol);
        if (called.choice().keeps() || called.choice().elsewhere()) {
            return;
        }
        own(called, symbol);
        for (int k = 0; k < called.arguments().size(); k++) {
            TypeMirror type = services.attribution().type(written(called.arguments().get(k)));
            JavaClass known = type == null ? null : services.program().find(type);
            TypeElement wanted = known == null ? null : parameter(services, symbol, k);
            if (wanted != null && services.program().find(wanted) == null) {
                emit(known, wanted, written(called.arguments().get(k)), called);
            }
        }
    }

    /** The object whose method is called may hand the call on to one of the sources that it keeps: that isn't sure. */
    private void wrapped(LibraryCalls.Called called, ExecutableElement symbol) {
        if (services.program().sure() || symbol.getModifiers().contains(Modifier.STATIC)) {
            return;
        }
        for (Wrappers.Wrapping each : services.wrappers().within(called)) {
            services.hint(called.at(), "object of the sources: " + called.shown() + " may call methods of "
                + each.inner().symbol().getSimpleName() + ", of which such an object is made");
            emit(each.inner(), each.wanted(), Value.OPAQUE, called.at());
        }
    }

    /** A comparator that an object is made with is called later, by whatever the object does. */
    private void compared(LibraryCalls.Called called, ExecutableElement symbol) {
        boolean later = called.choice().keeps() || called.at() instanceof NewClassTree;
        for (int k = 0; k < called.arguments().size() && later; k++) {
            TypeElement wanted = parameter(services, symbol, k);
            if (wanted != null && wanted.toString().equals("java.util.Comparator")
                    && !services.ownership().comparators().isAtHand(called.arguments().get(k))) {
                services.tell(Notes.Kind.ASSUMED, body, called.at(), "the comparator that " + called.shown()
                    + " is given looks at nothing that others write");
            }
        }
    }

    /** A class at hand may be the one whose method is called, where its object may be any of the called type: that isn't sure. */
    private void inPlace(LibraryCalls.Called called, ExecutableElement symbol) {
        boolean known = called.object() instanceof Value.Owned || called.object() instanceof Value.Fresh;
        Choice.Kind kind = called.choice().kind();
        if (known || services.program().sure() || symbol.getModifiers().contains(Modifier.STATIC) || kind == Choice.Kind.READS
                || kind == Choice.Kind.WRITES || kind == Choice.Kind.COMPOUND || called.choice().elsewhere()
                || !(called.at() instanceof MethodInvocationTree call)
                || !(call.getMethodSelect() instanceof MemberSelectTree select)
                || Calls.isSuper(select)
                || symbol.getEnclosingElement().toString().equals("java.lang.Object")) {
            return;
        }
        List<Part> calls = new ArrayList<>();
        for (JavaMethod method : services.substitutes().of(symbol, services.attribution().type(select.getExpression()))) {
            calls.add(new Part.Call(new Value.Opaque(method.owner().shape()), services.methods().of(method),
                List.of(new Value.Named(body.statics())), services.attribution().name(called.at())));
        }
        body.emit(calls.isEmpty() ? Part.NOTHING : new Part.Either(Dispatch.either(calls), Part.NOTHING));
    }

    /**
     * The text of an object of a class at hand, and the like, where a library's class above makes it: that of a list asks for
     * its elements.
     */
    void byLibrary(JavaClass known, Set<String> names, Tree at) {
        Element above = services.attribution().types().asElement(known.symbol().getSuperclass());
        if (!(above instanceof TypeElement library) || services.program().find(library) != null) {
            return;
        }
        boolean makes = services.attribution().elements().getAllMembers(library).stream().anyMatch(each ->
            names.contains(each.getSimpleName().toString()) && MAKING.contains(each.getEnclosingElement().toString()));
        if (makes) {
            emit(known, library, Value.OPAQUE, at);
        }
    }

    /** A method of a library's class calls others of its object, which a class at hand has in their place. */
    private void own(LibraryCalls.Called called, ExecutableElement symbol) {
        Choice.Kind kind = called.choice().kind();
        boolean asks = kind == Choice.Kind.PURE || kind == Choice.Kind.ASSUMED
            || kind == Choice.Kind.STEP && !services.program().sure();
        if (symbol.getModifiers().contains(Modifier.STATIC) || !asks
                || !(called.at() instanceof MethodInvocationTree call)) {
            return;
        }
        JavaClass known = call.getMethodSelect() instanceof MemberSelectTree select
            ? services.program().find(services.attribution().type(select.getExpression()))
            : body.heir(symbol.getEnclosingElement());
        String home = symbol.getEnclosingElement().toString();
        boolean plain = home.equals("java.lang.Object") || home.equals("java.lang.Record");
        if (known != null && (plain || services.program().find(symbol.getEnclosingElement()) != null)) {
            new Comparisons(services, body).parts(known, symbol.getSimpleName().toString(), called.at());
        } else if (known != null) {
            emit(known, (TypeElement) symbol.getEnclosingElement(), call.getMethodSelect() instanceof MemberSelectTree select
                ? select.getExpression() : null, called);
        }
    }

    /** The class that a parameter is of; null where it takes any object. */
    static TypeElement parameter(Services services, ExecutableElement symbol, int at) {
        List<? extends VariableElement> all = symbol.getParameters();
        if (all.isEmpty()) {
            return null;
        }
        TypeMirror type = all.get(Math.min(at, all.size() - 1)).asType();
        boolean rest = symbol.isVarArgs() && at >= all.size() - 1 && type instanceof ArrayType;
        TypeMirror erased = services.attribution().types().erasure(rest ? ((ArrayType) type).getComponentType() : type);
        return erased instanceof DeclaredType declared && !declared.toString().equals("java.lang.Object")
            ? (TypeElement) declared.asElement() : null;
    }

    /** Calls on an object, which is this one where none is written. */
    private void emit(JavaClass known, TypeElement wanted, ExpressionTree object, LibraryCalls.Called called) {
        boolean own = object == null || Uses.isName(object, "this");
        Value me = own ? body.me(services.attribution().start(called.at())) : null;
        emit(known, wanted, me == null ? Value.OPAQUE : me, called.at());
    }

    private void emit(JavaClass known, TypeElement wanted, Value me, Tree at) {
        List<Part> calls = new ArrayList<>();
        for (JavaMethod method : services.substitutes().of(known, wanted)) {
            boolean fits = me instanceof Value.Named && me.type().fits(method.owner().shape());
            calls.add(new Part.Call(fits ? me : new Value.Opaque(method.owner().shape()), services.methods().of(method),
                List.of(new Value.Named(body.statics())), services.attribution().name(at)));
        }
        if (!calls.isEmpty()) {
            body.emit(new Part.Repeat(Dispatch.either(calls), services.attribution().name(at)));
        }
    }
}
