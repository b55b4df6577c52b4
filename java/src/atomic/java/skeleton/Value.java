package atomic.java.skeleton;

/** What is known of an object in a skeleton. */
public sealed interface Value {

    /** Nothing is known of it. */
    Value OPAQUE = new Opaque(null);

    /** An object that a path names. */
    record Named(Path path) implements Value { }

    /** An object of a class, in a variable that is assigned again. */
    record Loose(Path.Root variable) implements Value { }

    /** An object of a class without a name: what a call or {@code new} gives. Without a class nothing is known. */
    record Opaque(Shape type) implements Value { }

    /** An object that only the receiver's field leads to: its contents are that field's. It may have a path itself. */
    record Owned(Value receiver, Field contents, Path own) implements Value { }

    /** A node of a container, whose fields belong to the container. */
    record Node(Value container) implements Value { }

    /** An object that no other thread knows yet; {@code type} is null where it isn't one of the classes at hand. */
    record Fresh(Shape type) implements Value { }

    /** An object that came as an argument, and that isn't one of the classes at hand. */
    record Given(String name) implements Value { }

    /** The class of the object, where it is one of the skeleton's. */
    default Shape type() {
        if (this instanceof Named named) {
            return named.path().type();
        } else if (this instanceof Loose loose) {
            return loose.variable().type();
        } else if (this instanceof Opaque opaque) {
            return opaque.type();
        } else if (this instanceof Node node) {
            return node.container().type();
        } else if (this instanceof Fresh fresh) {
            return fresh.type();
        }
        return null;
    }

    /** The path of the object, or null. */
    default Path path() {
        return this instanceof Named named ? named.path() : this instanceof Owned owned ? owned.own() : null;
    }
}
