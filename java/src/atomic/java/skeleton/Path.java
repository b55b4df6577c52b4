package atomic.java.skeleton;

import java.util.ArrayList;
import java.util.List;

/**
 * A name of one object that stays the same: a root and at most two final fields behind it. The rules of atomicity know
 * locks by such names alone.
 */
public record Path(Root root, List<Field> fields) {

    /** The most fields that a path may have. */
    public static final int MOST_FIELDS = 2;

    /** Where a path begins. */
    public enum Kind { THIS, PARAMETER, LOCAL }

    /** The beginning of a path: {@code this}, a parameter or a final local. */
    public record Root(Kind kind, String name, Shape type) { }

    public static Path of(Root root) {
        return new Path(root, List.of());
    }

    /** The class of the object that this path names. */
    public Shape type() {
        return fields.isEmpty() ? root.type() : fields.get(fields.size() - 1).type();
    }

    /** Whether one more field may stand behind this path. */
    public boolean hasRoom() {
        return fields.size() < MOST_FIELDS;
    }

    /** This path with a final field behind it. */
    public Path then(Field field) {
        return then(List.of(field));
    }

    /** This path with final fields behind it, which may then be too long a path. */
    public Path then(List<Field> more) {
        List<Field> all = new ArrayList<>(fields);
        all.addAll(more);
        return new Path(root, List.copyOf(all));
    }

    public boolean isThis() {
        return root.kind() == Kind.THIS && fields.isEmpty();
    }

    /** The path as the language writes it. */
    public String text() {
        StringBuilder text = new StringBuilder(root.name());
        fields.forEach(field -> text.append('.').append(field.name()));
        return text.toString();
    }
}
