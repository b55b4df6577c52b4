package atomic.java.translation;

import atomic.java.library.Choice;
import atomic.java.program.JavaClass;
import atomic.java.program.JavaMethod;
import atomic.java.skeleton.Method;
import atomic.java.skeleton.Part;
import atomic.java.skeleton.Value;
import com.sun.source.tree.EnhancedForLoopTree;
import com.sun.source.tree.Tree;
import com.sun.source.tree.VariableTree;
import java.util.List;
import javax.lang.model.element.TypeElement;
import javax.lang.model.type.DeclaredType;
import javax.lang.model.type.TypeKind;
import javax.lang.model.type.TypeMirror;

/** Calls that Java makes by itself: those of {@code for (x : ..)} and of resources that are closed. */
final class Iteration {
    private final Services services;
    private final Body body;

    Iteration(Services services, Body body) {
        this.services = services;
        this.body = body;
    }

    /** The step to the next element of what is walked over. */
    void next(EnhancedForLoopTree tree, Value source) {
        TypeMirror type = services.attribution().type(tree.getExpression());
        Contents contents = new Contents(services, body);
        if (type.getKind() == TypeKind.ARRAY) {
            contents.elements(source, tree.getExpression());
            return;
        }
        JavaClass known = services.program().find(type);
        if (known != null) {
            own(known, "iterator", tree.getExpression());
            return;
        }
        Choice walk = services.program().library().choose(type, "iterator");
        if (walk.kind() == Choice.Kind.VIEW) {
            contents.call(source, false, tree.getExpression(), "Iterator.next");
        } else if (walk.kind() != Choice.Kind.PURE) {
            body.emit(services.doubt(Method.Doubt.OPEN, "Iterator.next", true, body, tree.getExpression(),
                "compound library call: walking over this object counts as several steps"));
        }
    }

    /** What is walked to: a map's entry shows a part of its map. */
    Value element(VariableTree variable, Value source) {
        return source instanceof Value.Owned && isEntry(services.attribution().element(variable).asType()) ? source
            : Value.OPAQUE;
    }

    /** Whether a type is that of a map's entries. */
    static boolean isEntry(TypeMirror type) {
        return type instanceof DeclaredType declared && ((TypeElement) declared.asElement()).getQualifiedName()
            .contentEquals("java.util.Map.Entry");
    }

    /** The call that closes a resource. */
    void close(Tree resource) {
        TypeMirror type = resource instanceof VariableTree variable
            ? services.attribution().element(variable).asType() : services.attribution().type(resource);
        JavaClass known = services.program().find(type);
        if (known != null) {
            own(known, "close", resource);
            return;
        }
        Choice choice = services.program().library().choose(type, "close");
        if (choice.kind() != Choice.Kind.PURE && choice.kind() != Choice.Kind.ASSUMED) {
            boolean several = choice.kind() != Choice.Kind.STEP;
            body.emit(services.doubt(Method.Doubt.OPEN, "AutoCloseable.close", several, body, resource,
                "compound library call: closing this object counts as several steps"));
        }
    }

    /** A call of a method of the sources without arguments. */
    private void own(JavaClass known, String name, Tree at) {
        for (JavaClass each = known; each != null; each = services.families().above(each)) {
            for (JavaMethod method : each.methods()) {
                if (method.symbol().getSimpleName().contentEquals(name) && method.symbol().getParameters().isEmpty()) {
                    body.emit(new Part.Call(new Value.Opaque(each.shape()), services.methods().of(method),
                        List.of(new Value.Named(body.statics())), services.attribution().place(at)));
                    walk(method, at);
                    return;
                }
            }
        }
        body.emit(services.doubt(Method.Doubt.OPEN, known.symbol().getSimpleName() + "." + name, true, body, at,
            "unknown call: " + name + " may do anything"));
    }

    /** The iterator of a class of the sources: its own methods where it is one of them too, else nothing is known. */
    private void walk(JavaMethod method, Tree at) {
        if (method.symbol().getSimpleName().contentEquals("iterator")) {
            body.emit(services.doubt(Method.Doubt.OPEN, "Iterator.next", true, body, at,
                "unknown call: the iterator that this loop walks with may do anything"));
        }
    }
}
