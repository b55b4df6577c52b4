package atomic.java.places;

import atomic.java.skeleton.Field;
import atomic.java.skeleton.Method;
import atomic.java.skeleton.Part;
import atomic.java.skeleton.Path;
import atomic.java.skeleton.Shape;
import atomic.java.skeleton.Value;
import java.util.List;
import java.util.Map;
import java.util.Set;
import java.util.TreeMap;
import java.util.stream.Collectors;

/**
 * Writes a skeleton as a source of the language. Each condition is written {@code false} and each value {@code 0} or
 * {@code null}, since effects don't depend on them.
 */
public final class Writer {
    private final Names names;
    private final Text text = new Text();
    private final Map<String, Shape> somes = new TreeMap<>();
    private final TreeMap<Integer, Method> lines = new TreeMap<>();
    private final Shape library;
    private Frame frame;
    private Aliases aliases;

    /** A writer whose helper methods stand in the class {@code library}. */
    public Writer(Names names, Shape library) {
        this.names = names;
        this.library = library;
    }

    /** With short names, and without the blanks that part no two words: these are most of a long text's bytes. */
    public Writer brief(Aliases shortNames) {
        aliases = shortNames;
        // The first alias is the shortest, and this class is named most.
        aliases.of(library.name());
        text.flat(true);
        return this;
    }

    /** Only the classes and fields of a frame. */
    public Writer within(Frame named) {
        frame = named;
        return this;
    }

    /** The whole text of the classes, with the methods {@code wanted}. */
    public Text write(List<Shape> shapes, Set<Method> wanted) {
        text.begin().line("class Main { void main() { } }");
        for (Shape shape : shapes) {
            if (shape != library && (frame == null || frame.shapes().contains(shape))) {
                shape(shape, wanted);
            }
        }
        shape(library, wanted);
        return text;
    }

    /** The text of one method. */
    public String write(Method method) {
        method(method);
        return text.toString();
    }

    /** How many bytes a method takes within its class. */
    public int size(Method method) {
        text.deeper();
        method(method);
        return text.length();
    }

    /** The lines of the class of helpers that give objects without a name. */
    public List<String> somes() {
        return somes.entrySet().stream().map(each -> name(each.getValue().name()) + " " + name(each.getKey())
            + "() { return null; }").toList();
    }

    /** A line of the text. */
    public String line(int number) {
        return text.toString().lines().skip(number - 1L).findFirst().orElse("").strip();
    }

    /** The method that stands at a line of the text, or null. */
    public Method method(int line) {
        Map.Entry<Integer, Method> found = lines.floorEntry(line);
        return found == null ? null : found.getValue();
    }

    private void shape(Shape shape, Set<Method> wanted) {
        String parent = shape.parent() == null ? "" : " extends " + name(shape.parent().name());
        text.begin().put("class ").mark(shape.place()).open(name(shape.name()) + parent);
        List<Field> own = shape.fields().stream().filter(this::isWritten).toList();
        own.forEach(this::field);
        constructor(shape);
        shape.methods().stream().filter(wanted::contains).forEach(this::method);
        if (shape == library) {
            somes().forEach(line -> text.begin().line(line));
        }
        text.close("");
    }

    private void field(Field field) {
        text.begin().put(field.fixed() ? "final " : "").put(type(field.type())).put(" ").mark(field.place());
        text.put(name(field.name()));
        if (field.guard() != null) {
            text.put(field.guard().writesOnly() ? " write_guarded_by this" : " guarded_by this");
            field.guard().lock().forEach(step -> text.put("." + name(step.name())));
        }
        text.line(";");
    }

    private void constructor(Shape shape) {
        List<Field> fixed = fixed(shape);
        if (!fixed.isEmpty()) {
            String parameters = fixed.stream().map(field -> type(field.type()) + " " + name(field.name()))
                .collect(Collectors.joining(", "));
            text.begin().open(name(shape.name()) + "(" + parameters + ")");
            fixed.forEach(field -> text.begin().line("this." + name(field.name()) + " = " + name(field.name()) + ";"));
            text.close("");
        }
    }

    /** The final fields of a class that are written, the furthest ancestor's first. */
    private List<Field> fixed(Shape shape) {
        List<Field> all = new java.util.ArrayList<>(shape.parent() == null ? List.of() : fixed(shape.parent()));
        shape.fields().stream().filter(field -> field.fixed() && isWritten(field)).forEach(all::add);
        return all;
    }

    private boolean isWritten(Field field) {
        return field.used() && (frame == null || frame.fields().contains(field));
    }

    private void method(Method method) {
        lines.put(text.lines(), method);
        text.begin().put(method.atomic() ? "atomic " : "").put("void ").mark(method.place());
        text.put(name(method.name())).put("(");
        text.put(method.parameters().stream().map(each -> "final " + type(each.type()) + " " + name(each.name()))
            .collect(Collectors.joining(", ")));
        text.put(")");
        String separator = " requires ";
        for (Path lock : method.required().stream().sorted(java.util.Comparator.comparing(Path::text)).toList()) {
            text.put(separator).put(path(lock));
            separator = ", ";
        }
        text.open("");
        method.loose().forEach(each -> text.begin().line(type(each.type()) + " " + name(each.name()) + " = null;"));
        part(method.body());
        text.close("");
    }

    private void part(Part part) {
        if (part instanceof Part.Sequence sequence) {
            sequence.parts().forEach(this::part);
        } else if (part instanceof Part.Either either) {
            either(either);
        } else if (part instanceof Part.Repeat repeat) {
            text.begin().mark(repeat.place()).open("while (false)");
            part(repeat.body());
            text.close("");
        } else if (part instanceof Part.Region region) {
            region(region);
        } else if (part instanceof Part.Access access) {
            access(access);
        } else if (part instanceof Part.Call call) {
            call(call);
        } else if (part instanceof Part.Local local) {
            String value = local.value() == null ? "null" : path(local.value());
            text.begin().line("final " + type(local.variable().type()) + " " + name(local.variable().name()) + " = " + value
                + ";");
        }
    }

    private void either(Part.Either either) {
        text.begin().open("if (false)");
        part(either.left().isNothing() ? either.right() : either.left());
        if (!either.left().isNothing() && !either.right().isNothing()) {
            text.close(" else {");
            text.deeper();
            part(either.right());
        }
        text.close("");
    }

    private void region(Part.Region region) {
        String lock = region.lock() == null ? name(names.invent("lock", "a lock without a name")) : path(region.lock());
        if (region.lock() == null) {
            text.begin().line("final " + name("Object") + " " + lock + " = null;");
        }
        text.begin().mark(region.place()).open("synchronized (" + lock + ")");
        part(region.body());
        text.close("");
    }

    private void access(Part.Access access) {
        one(access);
        Field.Guard guard = access.field().guard();
        if (access.field().wide() && (guard == null || guard.writesOnly())) {
            one(access);
        }
    }

    private void one(Part.Access access) {
        String nothing = access.field().type() == null ? "0" : "null";
        if (access.write()) {
            text.begin().mark(access.place());
            object(access.receiver());
            text.put(".").mark(access.place()).put(name(access.field().name())).line(" = " + nothing + ";");
        } else {
            text.begin().put("if (");
            object(access.receiver());
            text.put(".").mark(access.place()).put(name(access.field().name())).line(" == " + nothing + ") { }");
        }
    }

    private void call(Part.Call call) {
        text.begin().mark(call.place());
        object(call.receiver());
        text.put(".").mark(call.place()).put(name(call.target().name())).put("(");
        String separator = "";
        for (int k = 0; k < call.target().parameters().size(); k++) {
            text.put(separator);
            argument(call.target().parameters().get(k), k < call.arguments().size() ? call.arguments().get(k) : null);
            separator = ", ";
        }
        text.line(");");
    }

    private void argument(Path.Root parameter, Value value) {
        Path path = value == null ? null : value.path();
        if (path != null && path.type() != null && path.type().fits(parameter.type())) {
            text.put(path(path));
        } else {
            text.put(parameter.type() == null ? "0" : "null");
        }
    }

    private void object(Value value) {
        if (value instanceof Value.Named named) {
            text.put(path(named.path()));
        } else if (value instanceof Value.Loose loose) {
            text.put(name(loose.variable().name()));
        } else if (value instanceof Value.Node node) {
            object(node.container());
        } else if (value.type() == library) {
            text.put("new " + name(library.name()) + "()");
        } else {
            String some = "some_" + value.type().name();
            somes.put(some, value.type());
            text.put("new " + name(library.name()) + "()." + name(some) + "()");
        }
    }

    private String path(Path path) {
        StringBuilder steps = new StringBuilder(path.root().kind() == Path.Kind.THIS ? "this" : name(path.root().name()));
        path.fields().forEach(field -> steps.append('.').append(name(field.name())));
        return steps.toString();
    }

    private String type(Shape type) {
        return type == null ? "int" : name(type.name());
    }

    private String name(String name) {
        return aliases == null ? name : aliases.of(name);
    }
}
