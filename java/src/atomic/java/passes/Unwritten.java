package atomic.java.passes;

import atomic.java.places.Names;
import atomic.java.places.Notes;
import atomic.java.skeleton.Field;
import atomic.java.skeleton.Method;
import atomic.java.skeleton.Part;
import java.util.Collection;
import java.util.HashSet;
import java.util.Set;

/**
 * Takes out the looks at contents that nobody changes once others know them, as of arrays that are copied on write, and at
 * private fields that only a constructor sets: a look tells the same at any time. A constructor that lets its object get away
 * changes its fields from then on, and so do a reflected name, native code and a copy by {@code clone()}. Where only what is
 * sure counts, so go looks at other fields that nobody at hand changes.
 */
public final class Unwritten {
    private final Collection<Method> methods;
    private final boolean sure;
    private final Set<Field> written = new HashSet<>();

    public Unwritten(Collection<Method> methods, boolean sure) {
        this.methods = methods;
        this.sure = sure;
        methods.forEach(method -> find(method.body()));
    }

    /** Tells of the fields that nobody at hand changes, whose looks count as steps all the same. */
    public void tell(Names names, Notes notes) {
        methods.forEach(method -> tell(method.body(), names, notes));
    }

    private void tell(Part part, Names names, Notes notes) {
        if (part instanceof Part.Access access && isSettled(access.field()) && !access.field().isHidden()
                && access.place() != null) {
            notes.hint(access.place(), "stable look: " + names.shown(access.field().name()) + " is changed only before others"
                + " know its object, so that a look tells the same at any time; it counts as a step all the same");
        }
        part.parts().forEach(each -> tell(each, names, notes));
    }

    /** Takes them out of all methods. */
    public void run() {
        methods.forEach(method -> method.body(without(method.body())));
    }

    private void find(Part part) {
        if (part instanceof Part.Access access && access.write()) {
            written.add(access.field());
        }
        part.parts().forEach(this::find);
    }

    private Part without(Part part) {
        boolean idle = part instanceof Part.Access access && (isSettled(access.field()) && (sure || access.field().isHidden())
            || access.field().isContents() && !written.contains(access.field()));
        return idle ? Part.NOTHING : part.map(this::without);
    }

    /** Whether nobody at hand changes a plain field, for which no guard is asked. */
    private boolean isSettled(Field field) {
        return field.mayBeGuarded() && !field.isContents() && field.guard() == null && !written.contains(field);
    }
}
