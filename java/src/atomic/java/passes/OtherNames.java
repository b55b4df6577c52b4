package atomic.java.passes;

import atomic.java.places.Notes;
import atomic.java.skeleton.Field;
import atomic.java.skeleton.Method;
import atomic.java.skeleton.Part;
import atomic.java.skeleton.Path;
import java.util.Collection;
import java.util.HashMap;
import java.util.HashSet;
import java.util.IdentityHashMap;
import java.util.List;
import java.util.Map;
import java.util.Set;

/**
 * Accesses that may hold the lock of their field under another name: {@code this.queue} may be the same object as
 * {@code this.thread.queue}. So it may be where other accesses of the field hold the second, this one holds the first, both
 * names begin with the same object, and the two locks are of one class. Two locks that their own fields made are two. The lock
 * may also be that of the object around an inner one: {@code synchronized void restore(Handle handle)} of a pool of handles
 * touches handles of its own.
 */
public final class OtherNames {
    private final Map<Field, Set<List<Field>>> guards = new HashMap<>();
    private final Map<Part.Access, Set<Path>> held = new IdentityHashMap<>();

    public OtherNames(Collection<Method> methods) {
        this(new Held(methods));
    }

    OtherNames(Held known) {
        known.visit((method, access, locks, shared) -> note(access, locks));
    }

    private void note(Part.Access access, Set<Path> locks) {
        held.computeIfAbsent(access, key -> new HashSet<>()).addAll(locks);
        Path receiver = access.receiver().path();
        for (Path lock : receiver == null ? Set.<Path>of() : locks) {
            List<Field> rest = Held.behind(lock, receiver);
            if (rest != null) {
                guards.computeIfAbsent(access.field(), key -> new HashSet<>()).add(rest);
            }
        }
    }

    /** Tells where the lock that is held may be that of the object around the one that is touched. */
    public void tell(Notes notes) {
        held.forEach((access, locks) -> {
            Path receiver = access.receiver().path();
            if (receiver != null && access.field().mayBeGuarded() && access.field().guard() == null
                    && locks.stream().anyMatch(lock -> mayBeAround(lock, receiver))) {
                notes.hint(access.place(), "lock under another name: the object around this one may be the one whose lock is"
                    + " held here");
            }
        });
    }

    /** Whether an access may hold a lock that others hold at theirs, under another name. */
    boolean mayBeHeld(Part.Access access) {
        Path receiver = access.receiver().path();
        Set<Path> locks = held.getOrDefault(access, Set.of());
        return receiver != null && (locks.stream().anyMatch(lock -> mayBeAround(lock, receiver))
            || guards.getOrDefault(access.field(), Set.of()).stream().map(receiver::then)
            .anyMatch(guard -> !locks.contains(guard) && locks.stream().anyMatch(lock -> mayBeSame(lock, guard))));
    }

    /** Whether a lock may be that of the object around another one, which that one was made within. */
    private static boolean mayBeAround(Path lock, Path inner) {
        return inner.type() != null && lock.type() != null && inner.type().fields().stream().anyMatch(each ->
            each.isAround() && !lock.equals(inner.then(each)) && (lock.type().fits(each.type()) || each.type().fits(lock.type())));
    }

    private static boolean mayBeSame(Path one, Path other) {
        boolean near = one.root().name().equals(other.root().name()) && one.type() != null && other.type() != null
            && (one.type().fits(other.type()) || other.type().fits(one.type()));
        return near && !(isMade(one) && isMade(other));
    }

    /** Whether a name ends at a field that made its lock; what it begins with was made by nobody here. */
    private static boolean isMade(Path path) {
        return path.fields().isEmpty() || path.fields().get(path.fields().size() - 1).isMade();
    }
}
