package atomic.java.places;

import atomic.java.skeleton.Field;
import atomic.java.skeleton.Method;
import atomic.java.skeleton.Part;
import atomic.java.skeleton.Path;
import atomic.java.skeleton.Shape;
import atomic.java.skeleton.Value;
import java.util.LinkedHashSet;
import java.util.Set;

/**
 * The classes and fields that methods name, with those that these name themselves: classes above, types of fields, guards. A
 * text with some of the methods needs no others, so that many classes don't stand in each of many texts.
 */
public final class Frame {
    private final Set<Shape> shapes = new LinkedHashSet<>();
    private final Set<Field> fields = new LinkedHashSet<>();

    public Set<Shape> shapes() {
        return shapes;
    }

    public Set<Field> fields() {
        return fields;
    }

    /** Adds what a method names. */
    public Frame add(Method method) {
        add(method.owner());
        method.parameters().forEach(each -> add(each.type()));
        method.loose().forEach(each -> add(each.type()));
        method.required().forEach(this::add);
        add(method.body());
        return this;
    }

    /** Adds a class and those above it. */
    public Frame add(Shape shape) {
        for (Shape each = shape; each != null && shapes.add(each);) {
            each = each.parent();
        }
        return this;
    }

    private void add(Field field) {
        Field written = field.written();
        if (fields.add(written)) {
            add(written.owner());
            add(written.type());
            if (written.guard() != null) {
                written.guard().lock().forEach(this::add);
            }
        }
    }

    private void add(Path path) {
        add(path.root().type());
        path.fields().forEach(this::add);
    }

    private void add(Value value) {
        add(value.type());
        if (value.path() != null) {
            add(value.path());
        } else if (value instanceof Value.Node node) {
            add(node.container());
        }
    }

    private void add(Part part) {
        if (part instanceof Part.Access access) {
            add(access.receiver());
            add(access.field());
        } else if (part instanceof Part.Call call) {
            add(call.receiver());
            add(call.target().owner());
            call.arguments().stream().filter(each -> each != null && each.path() != null).forEach(each -> add(each.path()));
        } else if (part instanceof Part.Region region && region.lock() != null) {
            add(region.lock());
        } else if (part instanceof Part.Local local) {
            add(local.variable().type());
            if (local.value() != null) {
                add(local.value());
            }
        }
        part.parts().forEach(this::add);
    }
}
