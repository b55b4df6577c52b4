package atomic.java.translation;

import atomic.java.attribution.WrittenAnnotations;
import atomic.java.program.Families;
import atomic.java.program.JavaClass;
import atomic.java.program.JavaMethod;
import atomic.java.program.Program;
import atomic.java.places.Notes;
import atomic.java.skeleton.Field;
import atomic.java.skeleton.Shape;
import com.sun.source.tree.Tree;
import java.util.ArrayList;
import java.util.HashMap;
import java.util.List;
import java.util.Map;
import java.util.stream.Collectors;
import javax.lang.model.element.AnnotationMirror;
import javax.lang.model.element.AnnotationValue;
import javax.lang.model.element.Element;
import javax.lang.model.element.ElementKind;
import javax.lang.model.element.VariableElement;

/** The locks that annotations name. Annotations count by their simple names, whoever's they are. */
public final class Guards {

    /** A lock: the fields that lead to it from {@code this}, or from the object {@code Statics}. */
    public record Lock(boolean isStatic, List<Field> fields) { }

    private final Program program;
    private final Fields fields;
    private final Map<VariableElement, Lock> known = new HashMap<>();
    private final Map<JavaClass, Map<String, VariableElement>> own = new HashMap<>();

    Guards(Program program, Fields fields) {
        this.program = program;
        this.fields = fields;
    }

    /** What a name means. */
    Element element(Tree tree) {
        return program.attribution().element(tree);
    }

    /** What stands around a tree. */
    Tree parent(Tree tree) {
        return program.attribution().parent(tree);
    }

    /** Whether the annotations of some field name a guard. */
    public boolean areNamed() {
        return program.classes().stream().flatMap(each -> each.symbol().getEnclosedElements().stream())
            .anyMatch(member -> member instanceof VariableElement field && isNamed(field));
    }

    /** Whether the annotations of a field name a guard. */
    public boolean isNamed(VariableElement field) {
        return !words(field, List.of("GuardedBy")).isEmpty();
    }

    /** Whether the guard of a field belongs to a class, so that all objects share it. */
    public boolean isStatic(VariableElement field) {
        Lock lock = of(field);
        return lock != null && lock.isStatic();
    }

    /** The lock that guards a field, or null. */
    public Lock of(VariableElement field) {
        if (!known.containsKey(field)) {
            known.put(field, null);
            List<String> words = words(field, List.of("GuardedBy"));
            if (!words.isEmpty()) {
                known.put(field, resolve(words.get(0), field));
            }
        }
        return known.get(field);
    }

    private Lock resolve(String word, VariableElement field) {
        JavaClass owner = program.find(field.getEnclosingElement());
        Lock lock = word.strip().equals("itself") ? new Lock(Families.isStatic(field),
            List.of(fields.home(field).field())) : lock(word, owner);
        if (lock == null && fields.uses().declaration(field) != null) {
            program.notes().tell(Notes.Kind.APPROXIMATED, field,
                program.attribution().name(fields.uses().declaration(field)), "the guard " + word
                + " isn't this, a class or a final field of this, so the field counts as unguarded");
        }
        return lock;
    }

    /** The locks that the callers of a method hold, as its annotations say: words that a method's own scope resolves. */
    public List<String> required(Element method) {
        return words(method, List.of("GuardedBy", "Holding", "RequiresLock"));
    }

    private List<String> words(Element element, List<String> names) {
        List<String> words = known(element, names);
        return words.isEmpty() ? WrittenAnnotations.words(declaration(element), names) : words;
    }

    private Tree declaration(Element element) {
        JavaMethod method = program.method(element);
        return method != null ? method.tree() : fields.uses().declaration(element);
    }

    /** As javac knows them, which also finds the values of constants. */
    private static List<String> known(Element element, List<String> names) {
        List<String> words = new ArrayList<>();
        List<AnnotationMirror> all = new ArrayList<>(element.getAnnotationMirrors());
        if (element instanceof VariableElement) {
            all.addAll(element.asType().getAnnotationMirrors());
        }
        for (AnnotationMirror each : all) {
            if (names.contains(each.getAnnotationType().asElement().getSimpleName().toString())) {
                each.getElementValues().values().forEach(value -> collect(value, words));
            }
        }
        return words;
    }

    private static void collect(AnnotationValue value, List<String> words) {
        if (value.getValue() instanceof List<?> list) {
            list.forEach(each -> words.add(String.valueOf(((AnnotationValue) each).getValue())));
        } else {
            words.add(String.valueOf(value.getValue()));
        }
    }

    /** The lock that a word means within a class, or null where it isn't one that keeps its meaning. */
    public Lock lock(String written, JavaClass context) {
        String word = written.strip().replaceAll("\\.(readLock|writeLock)\\(\\)$", "");
        if (word.equals("this")) {
            return new Lock(false, List.of());
        } else if (word.endsWith(".class")) {
            JavaClass named = named(word.substring(0, word.length() - ".class".length()), context);
            return named == null ? null : new Lock(true, List.of(fields.staticsOf(named)));
        }
        Scope scope = new Scope(context);
        for (String step : word.split("\\.")) {
            if (!scope.step(step)) {
                return null;
            }
        }
        return scope.lock();
    }

    private JavaClass named(String word, JavaClass context) {
        String simple = word.substring(word.lastIndexOf('.') + 1);
        for (JavaClass each = context; each != null; each = each.outer()) {
            if (each.symbol().getSimpleName().contentEquals(simple)) {
                return each;
            }
        }
        return program.classes().stream().filter(each -> each.symbol().getSimpleName().contentEquals(simple))
            .findFirst().orElse(null);
    }

    /** Follows the parts of a lock's name. */
    private final class Scope {
        private JavaClass current;
        private boolean isStatic;
        private boolean begun;
        private final List<Field> steps = new ArrayList<>();

        Scope(JavaClass context) {
            current = context;
        }

        boolean step(String word) {
            if (word.equals("this")) {
                return true;
            }
            VariableElement field = current == null ? null : field(word);
            if (field != null) {
                begun = true;
                return behind(field);
            }
            JavaClass named = begun ? null : named(word, current);
            if (named == null) {
                return false;
            }
            leadOut(named);
            return true;
        }

        /** {@code Outer.this} leads to the object around this one. */
        private void leadOut(JavaClass named) {
            for (JavaClass each = current; each != null && each != named && each.hasOuterObject(); each = each.outer()) {
                JavaClass container = fields.nodes().container(each);
                if (container == null) {
                    steps.add(fields.outerOf(each.shape(), each.outer().shape()));
                }
            }
            current = named;
        }

        private VariableElement field(String word) {
            for (JavaClass each = current; each != null; each = begun || !each.hasOuterObject() ? null : each.outer()) {
                for (JavaClass above = each; above != null; above = fields.families().above(above)) {
                    VariableElement found = own(above, word);
                    if (found != null) {
                        if (!Families.isStatic(found) && each != current) {
                            leadOut(each);
                        }
                        return found;
                    }
                }
            }
            return current.outer() == null || begun ? null : own(current.outer(), word);
        }

        private VariableElement own(JavaClass each, String word) {
            return own.computeIfAbsent(each, key -> key.symbol().getEnclosedElements().stream()
                .filter(member -> member.getKind() == ElementKind.FIELD).map(VariableElement.class::cast)
                .collect(Collectors.toMap(field -> field.getSimpleName().toString(), field -> field, (one, other) -> one)))
                .get(word);
        }

        private boolean behind(VariableElement found) {
            VariableElement field = LockViews.source(found, fields);
            if (!fields.isSettled(field) || fields.home(field).field().type() == null) {
                return false;
            }
            if (Families.isStatic(field)) {
                isStatic = true;
                steps.clear();
                steps.add(fields.staticsOf(program.find(field.getEnclosingElement())));
            }
            steps.add(fields.home(field).field());
            current = program.find(field.asType());
            return true;
        }

        Lock lock() {
            return steps.size() > 2 ? null : new Lock(isStatic, List.copyOf(steps));
        }
    }

    /** A class's lock as its own statics name it, or null where it belongs to another class. */
    List<Field> withinStatics(Lock lock, Shape home) {
        return lock.fields().get(0).type() == home ? lock.fields().subList(1, lock.fields().size()) : null;
    }
}
