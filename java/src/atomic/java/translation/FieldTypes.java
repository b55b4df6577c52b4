package atomic.java.translation;

import atomic.java.program.JavaClass;
import atomic.java.program.Program;
import java.util.List;
import javax.lang.model.element.Element;
import javax.lang.model.element.VariableElement;
import javax.lang.model.type.ArrayType;
import javax.lang.model.type.DeclaredType;
import javax.lang.model.type.TypeKind;
import javax.lang.model.type.TypeMirror;
import javax.lang.model.util.Types;

/** What the types of fields say of them. */
final class FieldTypes {
    private static final List<String> LOCKS = List.of("java.util.concurrent.locks.Lock",
        "java.util.concurrent.locks.ReadWriteLock", "java.util.concurrent.locks.StampedLock",
        "java.util.concurrent.locks.Condition");

    private final Program program;

    FieldTypes(Program program) {
        this.program = program;
    }

    /** Whether objects of a type are locks with methods, or belong to such. */
    boolean isLock(TypeMirror type) {
        return type != null && type.getKind() == TypeKind.DECLARED && LOCKS.stream().anyMatch(each -> isBelow(type, each));
    }

    /** Whether objects of a class may be copied field by field, which looks at each field without a word of it. */
    boolean isCopied(JavaClass owner) {
        return isBelow(owner.symbol().asType(), "java.lang.Cloneable");
    }

    private boolean isBelow(TypeMirror type, String above) {
        Element known = program.attribution().elements().getTypeElement(above);
        return known != null && isBelow(type, known.asType());
    }

    /** Whether objects of one type, whatever its arguments are, are of the other too. */
    boolean isBelow(TypeMirror type, TypeMirror above) {
        Types types = program.attribution().types();
        return types.isSubtype(types.erasure(type), types.erasure(above));
    }

    /** Numbers of 64 bits are written in two halves. */
    boolean isWide(TypeMirror type) {
        return type.getKind() == TypeKind.LONG || type.getKind() == TypeKind.DOUBLE;
    }

    /** Whether an element of what a field holds is such a number, or has contents that aren't looked at in one step. */
    boolean hasWideElements(VariableElement field) {
        TypeMirror element = field.asType() instanceof ArrayType array ? array.getComponentType() : field.asType();
        return isWide(element) || holdsContents(element);
    }

    /** Whether what an array holds has contents of its own; those of a class at hand are its fields, which are judged themselves. */
    private boolean holdsContents(TypeMirror element) {
        JavaClass known = program.find(element);
        boolean plain = known != null && known.symbol().getSuperclass().toString().equals("java.lang.Object");
        return !plain && program.library().hasContents(element);
    }

    /** Whether a type is the node's, or an array or a collection of such. */
    boolean leadsTo(TypeMirror type, JavaClass node) {
        if (type instanceof ArrayType array) {
            return leadsTo(array.getComponentType(), node);
        }
        return program.find(type) == node || type instanceof DeclaredType declared
            && declared.getTypeArguments().stream().anyMatch(each -> leadsTo(each, node));
    }
}
