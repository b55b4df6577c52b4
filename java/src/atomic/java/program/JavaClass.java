package atomic.java.program;

import atomic.java.skeleton.Shape;
import com.sun.source.tree.ClassTree;
import java.util.ArrayList;
import java.util.List;
import javax.lang.model.element.ElementKind;
import javax.lang.model.element.Modifier;
import javax.lang.model.element.TypeElement;

/** A class, interface, enum or record of the sources, with the skeleton's class that stands for it. */
public final class JavaClass {
    private final TypeElement symbol;
    private final ClassTree tree;
    private final JavaClass outer;
    private final boolean hasOuterObject;
    private final Shape shape;
    private final List<JavaMethod> methods = new ArrayList<>();

    /** The class of a tree; {@code outer} is the class around it, of which it has an object if {@code hasOuterObject}. */
    public JavaClass(TypeElement symbol, ClassTree tree, JavaClass outer, boolean hasOuterObject, Shape shape) {
        this.symbol = symbol;
        this.tree = tree;
        this.outer = outer;
        this.hasOuterObject = hasOuterObject;
        this.shape = shape;
    }

    public TypeElement symbol() {
        return symbol;
    }

    public ClassTree tree() {
        return tree;
    }

    public JavaClass outer() {
        return outer;
    }

    /** Whether its objects know one of the class around it. */
    public boolean hasOuterObject() {
        return hasOuterObject;
    }

    public Shape shape() {
        return shape;
    }

    public List<JavaMethod> methods() {
        return methods;
    }

    public boolean isInterface() {
        return symbol.getKind() == ElementKind.INTERFACE;
    }

    /** Whether it is there for the classes below it alone: it is abstract, and not public. */
    public boolean isHiddenBase() {
        return symbol.getKind() == ElementKind.CLASS && symbol.getModifiers().contains(Modifier.ABSTRACT)
            && !symbol.getModifiers().contains(Modifier.PUBLIC);
    }

    @Override
    public String toString() {
        return symbol.toString();
    }
}
