package atomic.java.program;

import atomic.java.skeleton.Place;
import com.sun.source.tree.MethodTree;
import javax.lang.model.element.ExecutableElement;
import javax.lang.model.element.Modifier;
import javax.lang.model.type.TypeKind;

/** A method or constructor of the sources. */
public record JavaMethod(ExecutableElement symbol, MethodTree tree, JavaClass owner, Place place) {

    public boolean isStatic() {
        return symbol.getModifiers().contains(Modifier.STATIC);
    }

    public boolean isConstructor() {
        return tree.getReturnType() == null;
    }

    public boolean isPrivate() {
        return symbol.getModifiers().contains(Modifier.PRIVATE);
    }

    public boolean isNative() {
        return symbol.getModifiers().contains(Modifier.NATIVE);
    }

    /** Whether code of other packages may call it. */
    public boolean isOpen() {
        return symbol.getModifiers().contains(Modifier.PUBLIC) || symbol.getModifiers().contains(Modifier.PROTECTED)
            || owner.isInterface();
    }

    /** Whether code that isn't beside it may call it: it isn't private, nor one of a private class that isn't public. */
    public boolean isCallable() {
        return !isConstructor() && !isPrivate() && (symbol.getModifiers().contains(Modifier.PUBLIC)
            || !owner.symbol().getModifiers().contains(Modifier.PRIVATE));
    }

    /** Whether only classes below and those of its package may call it: where none is missing, all calls are known. */
    public boolean isForHeirs() {
        return symbol.getModifiers().contains(Modifier.PROTECTED) && !owner.isInterface();
    }

    public boolean isAbstract() {
        return tree.getBody() == null && !symbol.getModifiers().contains(Modifier.NATIVE);
    }

    /** Whether a class below may have one of its own in its place. */
    public boolean isVirtual() {
        return !isStatic() && !isConstructor() && !isPrivate();
    }

    /** Whether it gives its caller nothing. */
    public boolean givesNothing() {
        return symbol.getReturnType().getKind() == TypeKind.VOID;
    }

    /** Whether serialisation calls it to fill an object that nobody else knows yet. */
    public boolean readsNewObject() {
        return isPrivate() && symbol.getSimpleName().contentEquals("readObject") && symbol.getParameters().size() == 1
            && symbol.getParameters().get(0).asType().toString().equals("java.io.ObjectInputStream");
    }
}
