package atomic.java.ownership;

import atomic.java.program.JavaMethod;
import atomic.java.program.Program;
import com.sun.source.tree.BinaryTree;
import com.sun.source.tree.Tree;
import java.util.List;
import java.util.Set;
import javax.lang.model.element.VariableElement;
import javax.lang.model.type.TypeMirror;

/**
 * What is called on an object of the sources where no call is written: a loop asks it for its iterator, a sum of texts for its
 * text, and a library's method that is given it for that, whether it equals another one, and the like. Such a method may let
 * its object get away as any other may.
 */
final class Implied {
    private static final Set<String> ASKED = Set.of("toString", "hashCode", "equals", "compareTo");
    private static final Set<String> COMPARED = Set.of("equals", "compareTo", "compare");

    private final Program program;
    private final Escape escape;
    private Boolean keepsCompared;

    Implied(Program program, Escape escape) {
        this.program = program;
        this.escape = escape;
    }

    /** Whether a loop or an operator lets the object of an expression get away. */
    boolean leaks(Tree object, Tree parent) {
        String asked = !(parent instanceof BinaryTree) ? "iterator" : parent.getKind() == Tree.Kind.PLUS ? "toString" : "";
        return leaks(object, asked);
    }

    /** Whether a library's method that is given the object lets it get away, by what it asks of it or of another one about it. */
    boolean leaks(Tree object) {
        return program.find(program.attribution().type(object)) != null
            && (ASKED.stream().anyMatch(each -> leaks(object, each)) || keepsCompared());
    }

    private boolean leaks(Tree object, String asked) {
        TypeMirror type = program.attribution().type(object);
        if (type == null || program.find(type) == null) {
            return false;
        }
        return program.named(asked).stream().anyMatch(each -> each.isVirtual() && isRelated(each, type)
            && escape.selves().leaks(each));
    }

    private boolean isRelated(JavaMethod method, TypeMirror type) {
        var types = program.attribution().types();
        TypeMirror home = types.erasure(method.owner().symbol().asType());
        return types.isSubtype(types.erasure(type), home) || types.isSubtype(home, types.erasure(type));
    }

    /** Whether some class keeps what its objects are compared with. */
    private boolean keepsCompared() {
        if (keepsCompared == null) {
            keepsCompared = false;
            keepsCompared = COMPARED.stream().flatMap(each -> program.named(each).stream()).anyMatch(this::keeps);
        }
        return keepsCompared;
    }

    private boolean keeps(JavaMethod method) {
        List<? extends VariableElement> parameters = method.symbol().getParameters();
        return method.isVirtual() && method.tree().getBody() != null && parameters.stream().anyMatch(each ->
            program.find(each.asType()) != null || each.asType().toString().equals("java.lang.Object"))
            && parameters.stream().anyMatch(escape::keeps);
    }
}
