package atomic.java.passes;

import atomic.java.places.Names;
import atomic.java.places.Notes;
import atomic.java.skeleton.Field;
import atomic.java.skeleton.Method;
import atomic.java.skeleton.Part;
import java.util.Collection;
import java.util.HashSet;
import java.util.Set;

/** Tells of each field that threads may touch at the same time: nothing guards it, and it isn't volatile. */
public final class Races {
    private final Names names;
    private final Notes notes;
    private final Set<Field> told = new HashSet<>();

    public Races(Names names, Notes notes) {
        this.names = names;
        this.notes = notes;
    }

    /** Tells of all fields that the methods touch. */
    public void run(Collection<Method> methods) {
        methods.forEach(method -> part(method.body()));
    }

    private void part(Part part) {
        if (part instanceof Part.Access access && told.add(access.field())) {
            Field field = access.field();
            boolean open = field.guard() == null || field.guard().writesOnly();
            if (open && field.mayBeGuarded() && !field.ordered() && field.place() != null) {
                notes.tell(Notes.Kind.DATA_RACE, null, field.place(), text(field));
                if (field.wide() && !field.isContents()) {
                    notes.hint(field.place(), "two halves: " + names.shown(field.name())
                        + " has 64 bits, so that one access counts as two, which most machines do in one");
                } else if (field.wide() && field.guard() != null) {
                    notes.hint(field.place(), "half a change: " + names.shown(field.name())
                        + " is looked at without the lock that its changes hold, so that one change counts as several steps");
                }
            }
        }
        part.parts().forEach(this::part);
    }

    private String text(Field field) {
        String name = names.shown(field.name());
        String missing = field.guard() == null ? "nothing guards " + name + ", which isn't volatile"
            : "only writes of " + name + " are guarded, and it isn't volatile";
        return missing + (field.wide() ? "; one access is several steps" : "");
    }
}
