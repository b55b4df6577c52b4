package atomic.java.skeleton;

import java.util.List;

/** A field of a skeleton's class. Fields are the same where they are the same object. */
public final class Field {

    /** The lock that guards a field: the fields that lead to it from the field's object, and whether reads want it too. */
    public record Guard(List<Field> lock, boolean writesOnly) { }

    private final Shape owner;
    private final String name;
    private final Shape type;
    private final boolean fixed;
    private Guard guard;
    private Place place;
    private boolean used;
    private boolean shared = true;
    private boolean wide;
    private boolean ordered;
    private boolean ofNodes;
    private boolean ofOne;
    private boolean contents;
    private boolean lock;
    private boolean made;
    private boolean around;
    private boolean hidden;
    private Field one;

    /** A field of {@code owner}; without a type it holds a number; {@code fixed} says that it is final. */
    public Field(Shape owner, String name, Shape type, boolean fixed) {
        this.owner = owner;
        this.name = name;
        this.type = type;
        this.fixed = fixed;
    }

    public Shape owner() {
        return owner;
    }

    public String name() {
        return one == null ? name : one.name();
    }

    public Shape type() {
        return one == null ? type : one.type();
    }

    public boolean fixed() {
        return fixed;
    }

    public Guard guard() {
        return one == null ? guard : one.guard();
    }

    public void guard(Guard lock) {
        if (one == null) {
            guard = lock;
        } else {
            one.guard(lock);
        }
    }

    /** Where the Java field is declared. */
    public Place place() {
        return place;
    }

    public void place(Place declared) {
        place = declared;
    }

    /** Whether some part of the skeleton names it; others aren't written. */
    public boolean used() {
        return used && one == null;
    }

    /** The field that is written: this one, or the one that stands for it. */
    public Field written() {
        return one == null ? this : one.written();
    }

    /** From here on another field of the same guard is written in its place. */
    public void standFor(Field other) {
        one = other;
    }

    public void use() {
        used = true;
    }

    /** No part of the skeleton names it any more. */
    public void forget() {
        used = false;
    }

    /** Whether a guard may be inferred: not for a volatile field, which says that it is read without one. */
    public boolean mayBeGuarded() {
        return shared;
    }

    public void leaveUnguarded() {
        shared = false;
    }

    /** Whether it is volatile, so that accesses of several threads are in an order, and no data race. */
    public boolean ordered() {
        return ordered;
    }

    public void order() {
        ordered = true;
    }

    /** Whether it stands for the contents of what a Java field holds. */
    public boolean isContents() {
        return contents;
    }

    public void standForContents() {
        contents = true;
    }

    /** Whether it holds a lock with methods, whose monitor is another lock. */
    public boolean isLock() {
        return lock;
    }

    public void standForLock() {
        lock = true;
    }

    /** Whether all that it ever holds was made for it. */
    public boolean isMade() {
        return made;
    }

    public void holdsOwn() {
        made = true;
    }

    /** Whether it leads from an inner object to the one around it. */
    public boolean isAround() {
        return around;
    }

    public void leadsOut() {
        around = true;
    }

    /** Whether all code that touches it is at hand. */
    public boolean isHidden() {
        return hidden;
    }

    public void hide() {
        hidden = true;
    }

    /** Whether it stands for a field of a container's nodes, of which one may be new where it is touched. */
    public boolean ofNodes() {
        return ofNodes;
    }

    public void standForNodes() {
        ofNodes = true;
    }

    /** Whether one thread alone touches it by the habit of Java's libraries, such as where an iterator stands. */
    public boolean isOfOne() {
        return ofOne;
    }

    public void leaveToOne() {
        ofOne = true;
    }

    /** Whether an access without a guard is several steps: of 64 bits, or of an object that isn't safe by itself. */
    public boolean wide() {
        return wide;
    }

    public void widen() {
        wide = true;
    }

    /** Whether one change that holds its lock is one step, whoever looks without it. */
    public void changesWhole(boolean whole) {
        wide &= !whole;
    }
}
