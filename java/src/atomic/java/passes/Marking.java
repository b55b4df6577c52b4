package atomic.java.passes;

import atomic.java.skeleton.Field;
import atomic.java.skeleton.Method;
import atomic.java.skeleton.Part;
import atomic.java.skeleton.Path;
import atomic.java.skeleton.Value;
import java.util.Collection;

/** Marks the fields that a skeleton names, so that no others are written. */
public final class Marking {

    private Marking() { }

    /** Marks those of all methods. */
    public static void run(Collection<Method> methods) {
        for (Method method : methods) {
            method.required().forEach(Marking::path);
            part(method.body());
        }
    }

    private static void part(Part part) {
        if (part instanceof Part.Access access) {
            value(access.receiver());
            access.field().use();
            if (access.field().guard() != null) {
                access.field().guard().lock().forEach(Field::use);
            }
        } else if (part instanceof Part.Call call) {
            value(call.receiver());
            call.arguments().forEach(Marking::value);
        } else if (part instanceof Part.Region region && region.lock() != null) {
            path(region.lock());
        } else if (part instanceof Part.Local local && local.value() != null) {
            path(local.value());
        }
        part.parts().forEach(Marking::part);
    }

    private static void value(Value value) {
        if (value.path() != null) {
            path(value.path());
        }
    }

    private static void path(Path path) {
        path.fields().forEach(Field::use);
    }
}
