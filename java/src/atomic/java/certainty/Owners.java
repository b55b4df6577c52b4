package atomic.java.certainty;

import atomic.java.skeleton.Method;
import atomic.java.skeleton.Part;
import atomic.java.skeleton.Path;
import atomic.java.skeleton.Value;
import java.util.HashMap;
import java.util.Map;

/**
 * Whose objects the names in a body are: for {@code this} and each parameter the name that the object has in the method that is
 * looked at, which calls that body. An object without such a name is nobody's.
 */
record Owners(Path.Root self, Map<Path.Root, Path.Root> given) {

    /** Those of the method itself, where each name is its own. */
    static Owners of(Method method) {
        Map<Path.Root, Path.Root> given = new HashMap<>();
        method.parameters().forEach(each -> given.put(each, each));
        return new Owners(new Path.Root(Path.Kind.THIS, "this", method.owner()), given);
    }

    /** Those of a body that runs for a call here. */
    Owners within(Part.Call call, Method callee) {
        Map<Path.Root, Path.Root> inner = new HashMap<>();
        for (int k = 0; k < Math.min(callee.parameters().size(), call.arguments().size()); k++) {
            inner.put(callee.parameters().get(k), of(call.arguments().get(k)));
        }
        return new Owners(of(call.receiver()), inner);
    }

    /** The name of an object; null where it has none. */
    Path.Root of(Value object) {
        return object instanceof Value.Named named ? of(named.path()) : null;
    }

    /** The same of an object that a path names. */
    Path.Root of(Path path) {
        if (path == null || !path.fields().isEmpty()) {
            return null;
        }
        return path.root().kind() == Path.Kind.THIS ? self : given.get(path.root());
    }
}
