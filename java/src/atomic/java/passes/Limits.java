package atomic.java.passes;

import atomic.java.places.Notes;
import atomic.java.program.Program;
import atomic.java.skeleton.Field;
import atomic.java.skeleton.Method;
import atomic.java.skeleton.Part;
import atomic.java.skeleton.Path;
import atomic.java.skeleton.Place;
import atomic.java.skeleton.Shape;
import java.util.ArrayList;
import java.util.Collection;
import java.util.Comparator;
import java.util.HashSet;
import java.util.LinkedHashMap;
import java.util.List;
import java.util.Map;
import java.util.Set;
import java.util.function.Predicate;

/**
 * Limits of the language that a skeleton can keep. Deep branches are written one after the other, which is at least as great.
 * Fields with one guard are alike to the rules, so one may stand for many. Final fields that are too many for a class name
 * no locks any more, and that is told.
 */
public final class Limits {

    /** How deeply branches stand in each other; each is two levels of the language, which has 64. */
    private static final int DEEPEST = 26;

    /** The language's limit of 32 fields, less a few. */
    private static final int MOST_FIELDS = 30;

    /** The language's limit of parameters: the constructor of a class has one for each final field. */
    public static final int MOST_FINAL = 16;

    private final Program program;
    private final Collection<Method> methods;
    private final Set<Field> forgotten = new HashSet<>();
    private final Set<Field> unguarded = new HashSet<>();

    public Limits(Program program, Collection<Method> methods) {
        this.program = program;
        this.methods = methods;
    }

    /** Keeps the limits in all methods and classes. Of the object with all statics each text keeps them for itself. */
    public void run() {
        methods.forEach(method -> method.body(flat(method.body(), 0)));
        if (finals(program.statics()) > MOST_FINAL) {
            dropIdleStatics();
        }
        List<Shape> shapes = new ArrayList<>(program.shapes());
        shapes.remove(program.statics());
        shapes.sort(Comparator.comparingInt(Limits::height));
        shapes.forEach(this::merge);
        shapes.forEach(this::forget);
        if (!forgotten.isEmpty() || !unguarded.isEmpty()) {
            methods.forEach(method -> unguard(method.body()));
            methods.forEach(this::forget);
        }
    }

    /** Where many classes have statics, those of their names go that no lock has, since nothing hangs on them. */
    private void dropIdleStatics() {
        Set<Field> locks = new HashSet<>();
        methods.forEach(method -> {
            method.required().forEach(path -> locks.addAll(path.fields()));
            locks(method.body(), locks);
        });
        List<Field> idle = program.statics().fields().stream().filter(each -> each.used() && !locks.contains(each)).toList();
        idle.forEach(Field::forget);
        Set<Field> lost = Set.copyOf(idle);
        methods.forEach(method -> method.body(new Forgetting(path -> path.fields().stream().anyMatch(lost::contains))
            .part(method.body())));
    }

    /** The fields in the names of locks: those that are taken, those that guard what is touched, and second names of such. */
    private static void locks(Part part, Set<Field> found) {
        boolean guarded = part instanceof Part.Access access && access.field().guard() != null;
        if (guarded || part instanceof Part.Region || part instanceof Part.Local) {
            Forgetting.paths(part).forEach(path -> found.addAll(path.fields()));
        }
        if (guarded) {
            found.addAll(((Part.Access) part).field().guard().lock());
        }
        part.parts().forEach(each -> locks(each, found));
    }

    private static int height(Shape shape) {
        return shape.parent() == null ? 0 : 1 + height(shape.parent());
    }

    private static Part flat(Part part, int depth) {
        if (depth > DEEPEST && part instanceof Part.Either either) {
            return Part.sequence(List.of(flat(either.left(), depth), flat(either.right(), depth)));
        }
        int inner = part instanceof Part.Sequence ? depth : depth + 1;
        return part.map(each -> flat(each, inner));
    }

    /** Lets one field stand for those of the same guard, in a class that has too many; it may be one of a class above. */
    private void merge(Shape shape) {
        Map<Object, List<Field>> alike = new LinkedHashMap<>();
        for (Shape each = isOver(shape) ? shape : null; each != null; each = each.parent()) {
            each.fields().stream().filter(field -> field.used() && !field.fixed()).forEach(field ->
                alike.computeIfAbsent(key(field), key -> new ArrayList<>()).add(field));
        }
        for (List<Field> group : alike.values()) {
            List<Field> own = group.stream().filter(each -> each.owner() == shape).toList();
            if (group.size() > 1 && !own.isEmpty() && isOver(shape)) {
                Field one = own.size() < group.size() ? group.get(own.size()) : one(shape, own);
                own.forEach(field -> field.standFor(one));
            }
        }
    }

    private Field one(Shape shape, List<Field> group) {
        Shape type = group.get(0).type();
        boolean same = group.stream().allMatch(each -> each.type() == type);
        Field one = new Field(shape, program.names().invent("fields", "one of many fields"), same ? type : null, false);
        one.guard(group.get(0).guard());
        one.use();
        if (group.get(0).wide()) {
            one.widen();
        }
        shape.add(one);
        return one;
    }

    private static Object key(Field field) {
        return List.of(field.guard() == null ? "" : field.guard(), field.wide());
    }

    /** The last final fields of a class that still has too many, and then the guards of its other ones. */
    private void forget(Shape shape) {
        List<Field> fixed = shape.fields().stream().filter(field -> field.used() && field.fixed()).toList();
        int kept = fixed.size() - (int) Math.min(fixed.size(), Math.max(0, finals(shape) - MOST_FINAL));
        forget(shape, fixed.subList(kept, fixed.size()));
        for (int k = kept - 1; k >= 0 && isOver(shape); k--) {
            forget(shape, fixed.subList(k, k + 1));
        }
        if (isOver(shape)) {
            unguard(shape, field -> true);
        }
    }

    private void forget(Shape shape, List<Field> lost) {
        for (Field each : lost) {
            each.forget();
            forgotten.add(each);
            tell(each, "names no lock");
        }
        Set<Field> these = Set.copyOf(lost);
        if (!these.isEmpty()) {
            unguard(shape, field -> field.guard().lock().stream().anyMatch(these::contains));
        }
    }

    private void unguard(Shape shape, Predicate<Field> wanted) {
        for (Field field : List.copyOf(shape.fields())) {
            if (field.used() && field.guard() != null && wanted.test(field)) {
                unguard(field);
            }
        }
        merge(shape);
    }

    private void unguard(Field field) {
        field.guard(null);
        unguarded.add(field);
        tell(field, "counts as unguarded");
    }

    private void tell(Field field, String what) {
        Place place = field.place() != null ? field.place() : field.owner().place();
        place = place == null && field.type() != null ? field.type().place() : place;
        if (place != null) {
            program.notes().tell(Notes.Kind.APPROXIMATED, null, place, "limit: a class has at most " + MOST_FINAL
                + " final fields, and " + MOST_FIELDS + " in all, so " + shown(field) + " " + what);
        }
    }

    private String shown(Field field) {
        String shown = program.names().shown(field.name());
        return shown.startsWith("=") ? shown.substring(1) : shown;
    }

    /** Where only what is certain counts, a method that needs such a name does nothing. */
    private void forget(Method method) {
        if (program.sure() && (needs(method.body()) || method.required().stream().anyMatch(this::isForgotten))) {
            method.body(Part.NOTHING);
        }
        method.required().removeIf(this::isForgotten);
        method.body(new Forgetting(this::isForgotten).part(method.body()));
    }

    /** The fields that are touched by a forgotten name, or whose guard has one. */
    private void unguard(Part part) {
        if (part instanceof Part.Access access && access.field().guard() != null
                && (access.field().guard().lock().stream().anyMatch(forgotten::contains)
                    || Forgetting.paths(access).anyMatch(this::isForgotten))) {
            unguard(access.field());
        }
        part.parts().forEach(this::unguard);
    }

    private boolean needs(Part part) {
        return Forgetting.paths(part).anyMatch(this::isForgotten)
            || part instanceof Part.Access access && unguarded.contains(access.field())
            || part.parts().stream().anyMatch(this::needs);
    }

    private boolean isForgotten(Path path) {
        return path.fields().stream().anyMatch(forgotten::contains);
    }

    private static boolean isOver(Shape shape) {
        return count(shape) > MOST_FIELDS || finals(shape) > MOST_FINAL;
    }

    private static long finals(Shape shape) {
        long above = shape.parent() == null ? 0 : finals(shape.parent());
        return above + shape.fields().stream().filter(field -> field.used() && field.fixed()).count();
    }

    private static long count(Shape shape) {
        long above = shape.parent() == null ? 0 : count(shape.parent());
        return above + shape.fields().stream().filter(Field::used).count();
    }
}
