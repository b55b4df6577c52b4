package atomic.java.certainty;

import atomic.java.program.Touch;
import atomic.java.skeleton.Field;
import atomic.java.skeleton.Part;
import atomic.java.skeleton.Path;
import atomic.java.skeleton.Shape;
import java.util.List;
import java.util.Map;
import javax.lang.model.element.VariableElement;
import javax.lang.model.type.DeclaredType;

/**
 * Something that a method does with a field, a collection or another object that others may know.
 *
 * @param thing the field, or what stands for the object: two events touch the same where this is equal
 * @param kind what is done
 * @param asked what a look-up asks for, as it is written
 * @param owner whose field it is: {@code this} or a parameter of the method; null where that isn't known
 * @param held the locks that are held meanwhile, the outermost first
 * @param branches the branches in which it stands: of each the side
 */
record Event(Object thing, Touch.Kind kind, String asked, Path.Root owner, List<Hold> held, Map<Integer, Integer> branches) {

    /**
     * A lock that is held from its taking on, which {@code number} tells; without a path it may be any lock. Where it is the one of
     * {@code this} or of a parameter, that is its owner.
     */
    record Hold(int number, Path lock, Part.Mode mode, Path.Root owner) {

        /** The same where the other method is called on the object of a parameter, which is another one than all that have names. */
        boolean keepsOut(Hold other, Path.Root called) {
            boolean apart = owner != null && !owner.equals(called) && other.isOfThis();
            return !apart && keepsOut(other);
        }

        private boolean isOfThis() {
            return owner != null && owner.kind() == Path.Kind.THIS;
        }

        /** Whether nobody can take the other lock meanwhile: it may be the same one, and not both are readers. */
        boolean keepsOut(Hold other) {
            return !(mode == Part.Mode.SHARED && other.mode == Part.Mode.SHARED) && mayBe(other);
        }

        /** Whether it may be the guard of a field. */
        boolean mayGuard(Field field) {
            List<Field> guard = field.guard().lock();
            if (lock == null) {
                return true;
            } else if (!guard.isEmpty() && !lock.fields().isEmpty()) {
                return last(lock) == guard.get(guard.size() - 1);
            }
            Shape type = guard.isEmpty() ? field.owner() : guard.get(guard.size() - 1).type();
            return type == null || lock.type() == null || type.fits(lock.type()) || lock.type().fits(type);
        }

        private boolean mayBe(Hold other) {
            if (lock == null || other.lock == null) {
                return true;
            } else if (!lock.fields().isEmpty() && !other.lock.fields().isEmpty()) {
                return last(lock) == last(other.lock);
            }
            return lock.type() == null || other.lock.type() == null || lock.type().fits(other.lock.type())
                || other.lock.type().fits(lock.type());
        }
    }

    private static Field last(Path lock) {
        return lock.fields().get(lock.fields().size() - 1);
    }

    boolean writes() {
        return kind.writes();
    }

    boolean isSame(Event other) {
        return thing.equals(other.thing);
    }

    /** Whether it touches the object on which the method is called. */
    boolean isOfThis() {
        return owner != null && owner.kind() == Path.Kind.THIS;
    }

    /** The parameter whose object both touch; null where there is none. */
    Path.Root parameter(Event other) {
        return owner != null && owner.kind() == Path.Kind.PARAMETER && owner.equals(other.owner) ? owner : null;
    }

    /** Whether it is a look-up of one thing among others. */
    boolean finds() {
        return kind == Touch.Kind.FIND;
    }

    /** Whether it takes something out, or puts something in its place. */
    boolean takes() {
        return writes() && !kind.addsAlone();
    }

    /** Whether the other one touches what is found in the thing of this one: an entry, or a field of its object. */
    boolean leadsTo(Event other) {
        boolean field = thing instanceof Field one && one.type() != null && other.thing instanceof Field inner
            && (one.type().fits(inner.owner()) || inner.owner().fits(one.type()));
        return field || other.thing instanceof Touch.Part part && part.whole().equals(thing);
    }

    /** Whether the other one touches a field of a node that is found through the atomic reference (or array) of this one. */
    boolean walksTo(Event other) {
        return thing instanceof VariableElement link && link.asType() instanceof DeclaredType type
            && type.asElement().getSimpleName().toString().startsWith("AtomicReference")
            && other.thing instanceof VariableElement inner && type.getTypeArguments().stream().anyMatch(each ->
                each instanceof DeclaredType node && node.asElement().equals(inner.getEnclosingElement()));
    }

    /** Whether it is a change that is made only if nobody came in between. */
    boolean compares() {
        return kind == Touch.Kind.COMPARE;
    }

    /** Whether it is a change behind which it is asked what was there. */
    boolean draws() {
        return kind == Touch.Kind.DRAW;
    }

    /** Whether it is one of plain data, which another thing may publish. */
    boolean isPlain() {
        return thing instanceof Field field && !field.ordered();
    }

    /** Whether it stands in a branch that the other one doesn't stand in. */
    boolean isBehindTestOf(Event other) {
        return !other.branches.keySet().containsAll(branches.keySet());
    }

    /** Whether one run of a method may do both. */
    boolean meets(Event other) {
        if (branches == other.branches) {
            return true;
        }
        for (Map.Entry<Integer, Integer> each : branches.entrySet()) {
            if (!other.branches.getOrDefault(each.getKey(), each.getValue()).equals(each.getValue())) {
                return false;
            }
        }
        return true;
    }

    /** The locks that are held at this event, at the other one, and all the time between the two. */
    List<Hold> around(Event other) {
        int common = 0;
        while (common < held.size() && common < other.held.size()
                && held.get(common).number() == other.held.get(common).number()) {
            common++;
        }
        return held.subList(0, common);
    }
}
