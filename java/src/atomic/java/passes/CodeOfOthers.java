package atomic.java.passes;

import atomic.java.places.Names;
import atomic.java.places.Notes;
import atomic.java.skeleton.Method;
import atomic.java.skeleton.Part;
import java.util.Collection;
import java.util.HashSet;
import java.util.Set;
import java.util.function.Function;

/**
 * Calls of code that others bring, such as listeners. Where a lock is held meanwhile, such code is assumed to touch no object
 * of these sources: then it makes no step, which is told. Elsewhere it may do anything.
 */
public final class CodeOfOthers {
    private final Collection<Method> methods;
    private final Names names;
    private final Notes notes;
    private final Function<Method, Object> origin;
    private final UnderLock underLock;
    private final Callees callees;
    /** Of which methods a call is taken out, and of which one stays. */
    private final Set<Method> left = new HashSet<>();
    private final Set<Method> called = new HashSet<>();
    private boolean strict;

    public CodeOfOthers(Collection<Method> methods, Names names, Notes notes, Function<Method, Object> origin) {
        this.methods = methods;
        this.names = names;
        this.notes = notes;
        this.origin = origin;
        underLock = new UnderLock(methods);
        callees = new Callees(methods);
    }

    /** Nothing is assumed. */
    public CodeOfOthers strictly(boolean strictly) {
        strict = strictly;
        return this;
    }

    /** Takes out what is assumed to be no step, and tells of what stays. */
    public void run() {
        methods.forEach(method -> method.body(without(method.body(), method, underLock.isAlways(method))));
        methods.stream().filter(method -> !left.contains(method) || called.contains(method))
            .forEach(method -> tell(method.body(), method));
    }

    private Part without(Part part, Method method, boolean held) {
        if (part instanceof Part.Call call && of(call.target()) != null) {
            boolean assumed = held && !strict && of(call.target()).brought();
            (assumed ? left : called).add(call.target());
            if (assumed) {
                notes.tell(Notes.Kind.ASSUMED, origin.apply(method), call.place(), shown(of(call.target()))
                    + ", which is called while a lock is held, touches no object of these sources");
            }
            return assumed ? Part.NOTHING : part;
        }
        boolean inside = held || part instanceof Part.Region region && region.mode() != Part.Mode.NONE;
        return part.map(each -> without(each, method, inside));
    }

    /** The unknown code that a call of a method runs, and nothing else; null where it runs anything that is known. */
    private Method of(Method target) {
        return target.unknown() != null ? target
            : target.body() instanceof Part.Call call && call.target().unknown() != null && callees.isAlone(target)
                && call.place().equals(target.place()) ? call.target() : null;
    }

    private String shown(Method unknown) {
        return names.shown(unknown.name()).substring(1);
    }

    private void tell(Part part, Method method) {
        if (part instanceof Part.Call call && call.target().unknown() != null) {
            notes.tell(Notes.Kind.APPROXIMATED, origin.apply(method), call.place(), call.target().unknown());
        }
        part.parts().forEach(each -> tell(each, method));
    }
}
