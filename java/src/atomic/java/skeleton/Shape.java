package atomic.java.skeleton;

import java.util.ArrayList;
import java.util.HashSet;
import java.util.List;
import java.util.Set;

/** A class of a skeleton. */
public final class Shape {
    private final String name;
    private final Place place;
    private Shape parent;
    private final List<Field> fields = new ArrayList<>();
    private final Set<String> names = new HashSet<>();
    private final List<Method> methods = new ArrayList<>();

    public Shape(String name, Place place) {
        this.name = name;
        this.place = place;
    }

    public String name() {
        return name;
    }

    public Place place() {
        return place;
    }

    /** The class that this one extends, or null. */
    public Shape parent() {
        return parent;
    }

    public void parent(Shape above) {
        parent = above;
    }

    public List<Field> fields() {
        return fields;
    }

    public void add(Field field) {
        fields.add(field);
        names.add(field.name());
    }

    /** Whether some field was made with this name. */
    public boolean hasField(String wanted) {
        return names.contains(wanted);
    }

    public List<Method> methods() {
        return methods;
    }

    /** Whether a value of this class fits a variable of the other one. */
    public boolean fits(Shape other) {
        for (Shape each = this; each != null; each = each.parent) {
            if (each == other) {
                return true;
            }
        }
        return false;
    }
}
