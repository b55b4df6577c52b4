package atomic.java.ownership;

import atomic.java.attribution.Attribution;
import atomic.java.program.JavaClass;
import com.sun.source.tree.ExpressionTree;
import java.util.List;
import javax.lang.model.element.ExecutableElement;
import javax.lang.model.element.TypeElement;
import javax.lang.model.type.ArrayType;
import javax.lang.model.type.DeclaredType;
import javax.lang.model.type.TypeKind;
import javax.lang.model.type.TypeMirror;
import javax.lang.model.type.TypeVariable;

/**
 * What types say of a container's nodes. A node's class has no class above it but {@code Object}, so what holds a node says
 * so by its type, unless that is {@code Object}, a wildcard, or a class whose parameters are left out.
 */
record NodeTypes(Attribution attribution, JavaClass node) {

    /** Whether a type is the node's, or an array or a collection of such. */
    boolean mentions(TypeMirror type) {
        if (type instanceof ArrayType array) {
            return mentions(array.getComponentType());
        }
        return type instanceof DeclaredType declared && (declared.asElement().equals(node.symbol())
            || declared.getTypeArguments().stream().anyMatch(this::mentions));
    }

    /** Whether an expression gives a node, or what says that it holds one. */
    boolean isNodes(ExpressionTree tree) {
        TypeMirror type = attribution.type(tree);
        return type != null && mentions(type);
    }

    /** Whether a method takes or gives nodes. */
    boolean inSignature(ExecutableElement method) {
        return mentions(method.getReturnType())
            || method.getParameters().stream().anyMatch(each -> mentions(each.asType()));
    }

    /** Whether what has this type can't be a node, nor lead to one, though it doesn't say so. */
    boolean isValue(TypeMirror type) {
        if (type == null || type.getKind().isPrimitive() || type.getKind() == TypeKind.VOID || type instanceof TypeVariable) {
            return true;
        } else if (!(type instanceof DeclaredType)) {
            return false;
        }
        DeclaredType declared = (DeclaredType) type;
        boolean raw = declared.getTypeArguments().isEmpty()
            && !((TypeElement) declared.asElement()).getTypeParameters().isEmpty();
        return !raw && !type.toString().equals("java.lang.Object")
            && declared.getTypeArguments().stream().allMatch(this::isValue);
    }

    /** Whether an argument may be filled with nodes that its type doesn't speak of: an array, or a collection of any objects. */
    boolean mayBeFilled(ExpressionTree argument) {
        TypeMirror type = attribution.type(argument);
        boolean holder = type instanceof ArrayType || type instanceof DeclaredType declared
            && !((TypeElement) declared.asElement()).getTypeParameters().isEmpty();
        return holder && !mentions(type) && !(type instanceof ArrayType array
            ? array.getComponentType().getKind().isPrimitive() : isValue(type));
    }

    /** Whether all of these arguments say that they hold nodes, or can't be filled with any. */
    boolean fillsNone(List<? extends ExpressionTree> arguments) {
        return arguments.stream().noneMatch(this::mayBeFilled);
    }
}
