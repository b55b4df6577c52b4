package atomic.java.translation;

import atomic.java.places.Notes;
import atomic.java.program.JavaClass;
import atomic.java.program.JavaMethod;
import atomic.java.skeleton.Field;
import atomic.java.skeleton.Path;
import atomic.java.skeleton.Value;
import java.util.Set;
import javax.lang.model.element.VariableElement;

/** The locks that a method's callers hold, as its annotations name them. */
final class Requirements {
    /** What {@code Collections.synchronizedSet} and its like call without their lock. */
    private static final Set<String> UNLOCKED = Set.of("iterator", "listIterator", "spliterator", "stream",
        "parallelStream");
    private final Services services;

    Requirements(Services services) {
        this.services = services;
    }

    /** Adds the lock that a word of an annotation names; where it names none, that is told. */
    void add(String word, JavaMethod method, Body body) {
        Path path = path(word, method, body);
        if (path == null && body.me(0) instanceof Value.Fresh) {
            return;
        }
        if (path == null || path.fields().size() > Path.MOST_FIELDS) {
            services.tell(Notes.Kind.APPROXIMATED, body, method.tree(), "the lock " + word
                + " of the annotation isn't this, a class or a final field of this, so it counts as not held");
        } else {
            path.fields().forEach(each -> each.use());
            body.target().required().add(path);
        }
    }

    /** Adds the lock of the object around, where a library's wrapper holds it at each call of the method from elsewhere. */
    void addWrappers(JavaMethod method, Body body) {
        if (method.isConstructor() || method.isStatic() || method.isPrivate() || body.isFresh()
                || UNLOCKED.contains(method.symbol().getSimpleName().toString())
                || !services.ownership().wrapped().isByOuter(method.owner()) || services.families()
                    .below(method.owner()).stream().anyMatch(each -> services.families().above(each) == method.owner())) {
            return;
        }
        Value outer = body.object(method.owner().outer(), 0);
        if (outer != null && outer.path() != null && outer.path().fields().size() <= Path.MOST_FIELDS) {
            outer.path().fields().forEach(Field::use);
            body.target().required().add(outer.path());
        }
    }

    /** The path of a lock: a parameter, by name or as {@code #1}, a lock of the class, or a field behind one of these. */
    private Path path(String written, JavaMethod method, Body body) {
        String word = written.strip();
        int dot = word.indexOf('.');
        String first = dot < 0 ? word : word.substring(0, dot);
        VariableElement given = given(first, method);
        if (given != null || first.startsWith("#")) {
            Path path = given == null ? null : parameter(given, method, body);
            return dot < 0 || path == null ? path : behind(path, word.substring(dot + 1), given, body);
        }
        Guards.Lock lock = services.fields().guards().lock(word, method.owner());
        if (lock == null) {
            return null;
        } else if (lock.isStatic()) {
            return body.statics().then(lock.fields());
        }
        Value me = body.me(0) instanceof Value.Node node ? node.container() : body.me(0);
        return me == null || me.path() == null ? null : me.path().then(lock.fields());
    }

    /** The parameter that a name or a number means, or null. */
    private static VariableElement given(String word, JavaMethod method) {
        var parameters = method.symbol().getParameters();
        if (word.matches("#[0-9]{1,3}")) {
            int at = Integer.parseInt(word.substring(1)) - 1;
            return at >= 0 && at < parameters.size() ? parameters.get(at) : null;
        }
        return parameters.stream().filter(each -> each.getSimpleName().contentEquals(word)).findFirst().orElse(null);
    }

    /** A lock of a parameter's class, behind the parameter. */
    private Path behind(Path path, String word, VariableElement parameter, Body body) {
        JavaClass type = services.program().find(parameter.asType());
        Guards.Lock lock = type == null ? null : services.fields().guards().lock(word, type);
        return lock == null ? null : lock.isStatic() ? body.statics().then(lock.fields()) : path.then(lock.fields());
    }

    /** The parameter that stands at the same place as one of the method furthest up, whatever it is called here. */
    private Path parameter(VariableElement wanted, JavaMethod method, Body body) {
        int at = body.target().owner() == services.program().statics() ? 0 : 1;
        for (VariableElement each : services.families().parameters(method).keySet()) {
            if (each.equals(wanted)) {
                return Path.of(body.target().parameters().get(at));
            }
            at++;
        }
        return null;
    }
}
