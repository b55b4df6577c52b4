package atomic.java.passes;

import atomic.java.skeleton.Field;
import atomic.java.skeleton.Method;
import atomic.java.skeleton.Part;
import atomic.java.skeleton.Path;
import java.util.Collection;
import java.util.HashSet;
import java.util.Set;
import java.util.stream.Collectors;
import java.util.stream.Stream;

/**
 * Takes out of a skeleton what may be no step: what is refused in what is left is refused whatever the approximated
 * parts do. A call of code that others bring stays only where no lock can be held, since nothing keeps others away
 * then. An access of a field that may have a guard goes where the lock may be held under another name: that of an
 * object without a name or, where a lock is held, of one that a local has from a call, of a node that may be new, one of
 * a field that leads to the same object (see {@link OtherNames}),
 * and in a method that is only called where some lock is held; the last and the local's stay where each access of the field
 * holds a lock whose name begins with that of the object: {@code synchronized (account) { account.balance = 0; }}. A region
 * that touches no field changes nothing.
 */
public final class Doubts {
    private final Collection<Method> methods;
    private final UnderLock underLock;
    private final Held held;
    private final OtherNames names;
    /** The fields that are also touched where no lock is held whose name begins with that of their object. */
    private final Set<Field> open = new HashSet<>();

    public Doubts(Collection<Method> methods) {
        this.methods = methods;
        underLock = new UnderLock(methods);
        held = new Held(methods);
        names = new OtherNames(held);
        held.visit((method, access, locks, shared) -> {
            if (!isNamed(access, locks.stream().map(Path::root).collect(Collectors.toSet()))) {
                open.add(access.field());
            }
        });
    }

    /** Takes it out. */
    public void run() {
        for (Method method : methods) {
            boolean dark = underLock.isAlways(method) && method.required().isEmpty();
            Set<Path.Root> named = held.entry(method).stream().map(Path::root).collect(Collectors.toSet());
            method.body(without(method.body(), new Around(underLock.isEver(method), dark, named)));
        }
    }

    /**
     * What is known of the locks around a part: whether one may be held, whether one may be held under a name that isn't
     * known, and the names with which those begin that are held.
     */
    private record Around(boolean held, boolean dark, Set<Path.Root> named) {

        Around within(Part part) {
            if (!(part instanceof Part.Region region)) {
                return this;
            }
            Set<Path.Root> all = new HashSet<>(named);
            Stream.ofNullable(region.lock()).map(Path::root).forEach(all::add);
            return new Around(true, false, Set.copyOf(all));
        }
    }

    /** A part without what may be no step. */
    private Part without(Part part, Around around) {
        if (part instanceof Part.Call call) {
            return isDoubtful(call.target().doubt(), around.held()) ? Part.NOTHING : call;
        } else if (part instanceof Part.Access access) {
            boolean named = !open.contains(access.field()) && isNamed(access, around.named());
            boolean any = names.mayBeHeld(access) || around.held() && !named && isAnyObject(access);
            return isCertain(access, around.dark() && !named) && !any ? access : Part.NOTHING;
        }
        Part rest = part.map(each -> without(each, around.within(part)));
        return rest instanceof Part.Region left && left.body().isNothing() && !touches(part) ? Part.NOTHING : rest;
    }

    private static boolean isNamed(Part.Access access, Set<Path.Root> locks) {
        return access.receiver().path() != null && locks.contains(access.receiver().path().root());
    }

    /** Whether an access is one of an object that a local has from a call: which lock guards it isn't known. */
    static boolean isAnyObject(Part.Access access) {
        return access.field().mayBeGuarded() && access.receiver().path() != null
            && access.receiver().path().root().kind() == Path.Kind.LOCAL;
    }

    private static boolean touches(Part part) {
        return part instanceof Part.Access || part.parts().stream().anyMatch(Doubts::touches);
    }

    private static boolean isDoubtful(Method.Doubt doubt, boolean held) {
        return doubt == Method.Doubt.ANY || doubt == Method.Doubt.OPEN && held;
    }

    /** Whether an access surely holds no more locks than those that are known. */
    static boolean isCertain(Part.Access access, boolean dark) {
        Field field = access.field();
        return !field.mayBeGuarded() || !dark && access.receiver().path() != null && !field.ofNodes();
    }
}
