package atomic.java.ownership;

import atomic.java.attribution.Attribution;
import com.sun.source.tree.MemberSelectTree;
import com.sun.source.tree.MethodInvocationTree;
import com.sun.source.tree.Tree;
import java.util.Set;
import javax.lang.model.element.ElementKind;
import javax.lang.model.element.ExecutableElement;
import javax.lang.model.element.TypeElement;
import javax.lang.model.type.ArrayType;
import javax.lang.model.type.DeclaredType;
import javax.lang.model.type.TypeKind;
import javax.lang.model.type.TypeMirror;
import javax.lang.model.type.WildcardType;

/**
 * Whether what a library's call gives may be an object that the call was given, or may hold it: {@code requireNonNull},
 * {@code getOrDefault} and {@code orElse} give it back, {@code Optional.of} and {@code List.of} give what holds it. Types
 * decide. A number, a text or a constant is no such thing, nor is an element of the collection that was given.
 */
public final class Results {
    private static final Set<String> VALUES = Set.of("java.lang.String", "java.lang.Boolean", "java.lang.Character",
        "java.lang.Byte", "java.lang.Short", "java.lang.Integer", "java.lang.Long", "java.lang.Float", "java.lang.Double",
        "java.lang.Number", "java.lang.Void", "java.math.BigInteger", "java.math.BigDecimal", "java.lang.Class");
    private static final int DEEPEST = 4;
    private static final Set<String> COPIES = Set.of("copyOf", "copyOfRange");

    private final Attribution attribution;

    public Results(Attribution attribution) {
        this.attribution = attribution;
    }

    /** Whether a call only copies what it is given, or gives a mere value. */
    boolean keepsNothing(MethodInvocationTree call) {
        return COPIES.contains(attribution.element(call).getSimpleName().toString()) || isValue(attribution.type(call));
    }

    /** Whether the object that a call gives may be the one that it was given, by their types. */
    boolean mayBe(MethodInvocationTree call, Tree given) {
        return fits(attribution.type(call), attribution.type(given));
    }

    /** Whether the object that a call gives may hold the one that it was given; a plain element of that doesn't. */
    boolean mayHold(MethodInvocationTree call, Tree given) {
        TypeMirror result = attribution.type(call);
        boolean element = attribution.type(given) instanceof DeclaredType declared && declared.getTypeArguments().stream()
            .anyMatch(each -> attribution.types().isSameType(bound(each), bound(result)));
        return !element && mayHold(result, attribution.type(given), 0);
    }

    /** Whether a call's result is looked at here alone, for a mere value, or not at all. */
    boolean isDropped(MethodInvocationTree call) {
        Tree parent = attribution.parent(call);
        return parent.getKind() == Tree.Kind.EXPRESSION_STATEMENT || parent instanceof MemberSelectTree select
            && attribution.parent(select) instanceof MethodInvocationTree next && next.getMethodSelect() == select
            && next.getArguments().isEmpty() && isValue(attribution.type(next));
    }

    /** Whether a call gives a part of a map through which the map may be changed; a map in order also gives copies of such. */
    boolean isEntry(MethodInvocationTree call) {
        return mentionsEntry(attribution.type(call))
            && !attribution.element(call).getEnclosingElement().toString().equals("java.util.NavigableMap")
            && !attribution.element(call).getEnclosingElement().toString().equals("java.util.TreeMap");
    }

    /** Whether what a call gives is a mere value. */
    boolean isValue(MethodInvocationTree call) {
        return isValue(attribution.type(call));
    }

    /** Whether a type is a map's entry, or has one among its parts. */
    boolean mentionsEntry(TypeMirror type) {
        return type instanceof DeclaredType declared && (name(declared).equals("java.util.Map.Entry")
            || declared.getTypeArguments().stream().anyMatch(each -> mentionsEntry(bound(each))));
    }

    private boolean mayHold(TypeMirror result, TypeMirror given, int depth) {
        if (isValue(result)) {
            return false;
        } else if (result instanceof ArrayType array) {
            return fits(array.getComponentType(), given) || mayHold(array.getComponentType(), given, depth + 1);
        }
        if (!(result instanceof DeclaredType declared) || declared.getTypeArguments().isEmpty() || depth > DEEPEST) {
            return true;
        }
        return declared.getTypeArguments().stream().anyMatch(each ->
            fits(bound(each), given) || !isPlain(bound(each)) && mayHold(bound(each), given, depth + 1));
    }

    /** A class without parameters of its own holds what it was made of, and not what a call around it was given. */
    private static boolean isPlain(TypeMirror type) {
        return type instanceof DeclaredType declared && declared.getTypeArguments().isEmpty();
    }

    private boolean fits(TypeMirror one, TypeMirror other) {
        if (one == null || other == null || isValue(one)) {
            return one == null || other == null;
        }
        TypeMirror left = attribution.types().erasure(bound(one));
        TypeMirror right = attribution.types().erasure(bound(other));
        return attribution.types().isSubtype(left, right) || attribution.types().isSubtype(right, left);
    }

    private static TypeMirror bound(TypeMirror type) {
        return type instanceof WildcardType wildcard && wildcard.getExtendsBound() != null ? wildcard.getExtendsBound()
            : type;
    }

    private static boolean isValue(TypeMirror type) {
        return type != null && (type.getKind().isPrimitive() || type.getKind() == TypeKind.VOID
            || type instanceof DeclaredType declared && (VALUES.contains(name(declared))
                || declared.asElement().getKind() == ElementKind.ENUM));
    }

    private static String name(DeclaredType type) {
        return ((TypeElement) type.asElement()).getQualifiedName().toString();
    }

    /** Whether an array is given for all the values of a stream, which then shows its contents as {@code Arrays.stream} does. */
    public boolean spreads(MethodInvocationTree call, ExecutableElement symbol) {
        return symbol.isVarArgs() && symbol.getEnclosingElement().toString().startsWith("java.util.stream.")
            && call.getArguments().size() == 1 && attribution.type(call.getArguments().get(0)) instanceof ArrayType given
            && !(given.getComponentType().getKind().isPrimitive() && symbol.getEnclosingElement().toString()
                .equals("java.util.stream.Stream"));
    }
}
