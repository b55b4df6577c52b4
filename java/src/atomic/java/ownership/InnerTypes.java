package atomic.java.ownership;

import atomic.java.program.JavaClass;
import atomic.java.program.Program;
import java.util.ArrayList;
import java.util.HashSet;
import java.util.List;
import java.util.Set;
import javax.lang.model.element.Element;
import javax.lang.model.element.ElementKind;
import javax.lang.model.element.Modifier;
import javax.lang.model.element.VariableElement;
import javax.lang.model.type.ArrayType;
import javax.lang.model.type.DeclaredType;
import javax.lang.model.type.TypeKind;
import javax.lang.model.type.TypeMirror;
import javax.lang.model.type.TypeVariable;
import javax.lang.model.type.WildcardType;

/** What types say of the objects within an object: those in a field's collection, and who may hold such a one. */
final class InnerTypes {
    private static final int DEEPEST = 3;

    private final Program program;

    InnerTypes(Program program) {
        this.program = program;
    }

    /** What is within a field's object, as its type says: collections and arrays, and objects of classes that others may see. */
    List<TypeMirror> within(VariableElement field) {
        List<TypeMirror> found = new ArrayList<>();
        parts(field.asType()).forEach(each -> collect(each, found));
        return found;
    }

    private void collect(TypeMirror type, List<TypeMirror> found) {
        TypeMirror bare = bound(type);
        if (bare.getKind() != TypeKind.DECLARED && bare.getKind() != TypeKind.ARRAY) {
            return;
        } else if (hasContents(bare) || isShown(program.find(bare))) {
            found.add(bare);
        }
        parts(bare).forEach(each -> collect(each, found));
    }

    /** Whether objects of a type are collections or arrays. */
    boolean hasContents(TypeMirror type) {
        return program.find(type) == null && program.library().hasContents(type);
    }

    private static boolean isShown(JavaClass known) {
        return known != null && !known.isInterface() && known.symbol().getKind() == ElementKind.CLASS
            && !known.symbol().getModifiers().contains(Modifier.PRIVATE);
    }

    private static List<? extends TypeMirror> parts(TypeMirror type) {
        return type instanceof ArrayType array ? List.of(array.getComponentType())
            : type instanceof DeclaredType declared ? declared.getTypeArguments() : List.of();
    }

    /** Whether a type tells nothing of its objects; what a class at hand is of, its users choose, who have no such things. */
    boolean isOpen(TypeMirror type) {
        TypeMirror bare = type == null ? null : bound(type);
        return bare == null || bare.toString().equals("java.lang.Object")
            || bare instanceof TypeVariable variable && program.find(variable.asElement().getEnclosingElement()) == null;
    }

    /** Whether an object of a type may be such a thing. */
    boolean mayBe(TypeMirror type, TypeMirror thing) {
        if (isOpen(type)) {
            return true;
        } else if (bound(type).getKind() != TypeKind.DECLARED && bound(type).getKind() != TypeKind.ARRAY) {
            return false;
        }
        TypeMirror one = program.attribution().types().erasure(bound(type));
        TypeMirror other = program.attribution().types().erasure(thing);
        boolean holder = parts(bound(type)).stream().anyMatch(each -> !isOpen(each) && mayBeOrHold(each, thing));
        return !holder && (program.attribution().types().isSubtype(one, other) || program.attribution().types().isSubtype(other, one));
    }

    /** Whether an object of a type may be such a thing, or have one within. */
    boolean mayBeOrHold(TypeMirror type, TypeMirror thing) {
        return mayBeOrHold(type, thing, 0, new HashSet<>());
    }

    private boolean mayBeOrHold(TypeMirror type, TypeMirror thing, int depth, Set<Element> seen) {
        TypeMirror bare = bound(type);
        if (isOpen(bare)) {
            return true;
        } else if (bare.getKind() != TypeKind.DECLARED && bare.getKind() != TypeKind.ARRAY || depth > DEEPEST) {
            return false;
        }
        TypeMirror one = program.attribution().types().erasure(bare);
        TypeMirror other = program.attribution().types().erasure(thing);
        boolean is = program.attribution().types().isSubtype(one, other) || program.attribution().types().isSubtype(other, one);
        return is || parts(bare).stream().anyMatch(each -> mayBeOrHold(each, thing, depth + 1, seen))
            || hasField(program.find(bare), thing, depth, seen);
    }

    private boolean hasField(JavaClass known, TypeMirror thing, int depth, Set<Element> seen) {
        return known != null && seen.add(known.symbol()) && known.symbol().getEnclosedElements().stream().anyMatch(each ->
            each.getKind() == ElementKind.FIELD && !each.getModifiers().contains(Modifier.STATIC)
            && mayBeOrHold(each.asType(), thing, depth + 1, seen));
    }

    private static TypeMirror bound(TypeMirror type) {
        return type instanceof WildcardType any ? any.getExtendsBound() != null ? any.getExtendsBound()
            : any.getSuperBound() != null ? any.getSuperBound() : type : type;
    }
}
