package atomic.java.skeleton;

import java.util.List;
import java.util.function.UnaryOperator;

/** A piece of a skeleton's method: its steps, in order, with every value left out. */
public sealed interface Part {

    /** No step at all. */
    Part NOTHING = new Sequence(List.of());

    /** One part after the other. */
    record Sequence(List<Part> parts) implements Part { }

    /** One of two parts. */
    record Either(Part left, Part right) implements Part { }

    /** A part any number of times. */
    record Repeat(Part body, Place place) implements Part { }

    /**
     * How the lock of a region is taken: by one thread alone, or by any number of readers; or there is none, and what is in
     * front of the region may as well be done at any later time, as a lock may be taken earlier.
     */
    enum Mode { EXCLUSIVE, SHARED, NONE }

    /** A part while a lock is held; without a lock's name it is a lock that guards nothing. */
    record Region(Path lock, Mode mode, Part body, Place place) implements Part { }

    /** A read or a write of a field. */
    record Access(Value receiver, Field field, boolean write, Place place) implements Part { }

    /** A call of a method. */
    record Call(Value receiver, Method target, List<Value> arguments, Place place) implements Part { }

    /** A final local from here on, either a second name of a path or an object of its own. */
    record Local(Path.Root variable, Path value) implements Part { }

    /** A wait for a condition of a lock; {@code kept} names what a turn of the loop around it keeps, and is else null. */
    record Wait(Path lock, String kept, Place place) implements Part { }

    /** A sequence without empty parts. */
    static Part sequence(List<Part> parts) {
        List<Part> kept = parts.stream().filter(part -> !part.isNothing()).toList();
        return kept.size() == 1 ? kept.get(0) : kept.isEmpty() ? NOTHING : new Sequence(kept);
    }

    default boolean isNothing() {
        return this instanceof Sequence sequence && sequence.parts().stream().allMatch(Part::isNothing);
    }

    /** This part with its direct sub-parts replaced. */
    default Part map(UnaryOperator<Part> change) {
        if (this instanceof Sequence sequence) {
            return sequence(sequence.parts().stream().map(change).toList());
        } else if (this instanceof Either either) {
            Part left = change.apply(either.left());
            Part right = change.apply(either.right());
            return left.isNothing() && right.isNothing() ? NOTHING : new Either(left, right);
        } else if (this instanceof Repeat repeat) {
            Part body = change.apply(repeat.body());
            return body.isNothing() ? NOTHING : new Repeat(body, repeat.place());
        } else if (this instanceof Region region) {
            return new Region(region.lock(), region.mode(), change.apply(region.body()), region.place());
        }
        return this;
    }

    /** The direct sub-parts. */
    default List<Part> parts() {
        if (this instanceof Sequence sequence) {
            return sequence.parts();
        } else if (this instanceof Either either) {
            return List.of(either.left(), either.right());
        } else if (this instanceof Repeat repeat) {
            return List.of(repeat.body());
        } else if (this instanceof Region region) {
            return List.of(region.body());
        }
        return List.of();
    }
}
