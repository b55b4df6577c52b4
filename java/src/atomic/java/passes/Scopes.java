package atomic.java.passes;

import atomic.java.skeleton.Method;
import atomic.java.skeleton.Part;
import atomic.java.skeleton.Path;
import java.util.ArrayList;
import java.util.Collection;
import java.util.HashSet;
import java.util.LinkedHashMap;
import java.util.List;
import java.util.Map;
import java.util.Set;

/**
 * Where locals are declared. Java lets code speak of a name behind the part that makes it, as behind the pattern of a condition
 * or what stands between {@code lock()} and {@code unlock()}. Such a name is declared in front of the turn of the loop, or of
 * the method, that has it. One that a turn makes and that is spoken of behind the loop names nothing.
 */
public final class Scopes {
    private final Set<Path.Root> lost = new HashSet<>();

    private Scopes() { }

    /** Puts declarations where all that speaks of them sees them. */
    public static void run(Collection<Method> methods) {
        for (Method method : methods) {
            Scopes scopes = new Scopes();
            scopes.find(method.body(), new HashSet<>());
            if (!scopes.lost.isEmpty()) {
                Part body = scopes.turn(method.body());
                scopes.lost.clear();
                scopes.find(body, new HashSet<>());
                method.body(new Forgetting(path -> scopes.lost.contains(path.root())).part(body));
            }
        }
    }

    /** Finds the locals that a part speaks of where they aren't declared; {@code known} is what is declared so far. */
    private void find(Part part, Set<Path.Root> known) {
        Forgetting.paths(part).filter(path -> path.root().kind() == Path.Kind.LOCAL && !known.contains(path.root()))
            .forEach(path -> lost.add(path.root()));
        if (part instanceof Part.Local local) {
            known.add(local.variable());
        }
        if (part instanceof Part.Sequence) {
            part.parts().forEach(each -> find(each, known));
        } else {
            part.parts().forEach(each -> within(each, known));
        }
    }

    /** The same of a part whose declarations end with it. */
    private void within(Part part, Set<Path.Root> known) {
        List<Path.Root> own = new ArrayList<>();
        declared(part, own);
        own.removeIf(known::contains);
        find(part, known);
        own.forEach(known::remove);
    }

    private static void declared(Part part, List<Path.Root> found) {
        if (part instanceof Part.Local local) {
            found.add(local.variable());
        } else if (part instanceof Part.Sequence) {
            part.parts().forEach(each -> declared(each, found));
        }
    }


    /** A turn of a loop, or the body of a method, with the lost declarations that it has in front of it. */
    private Part turn(Part part) {
        Map<Path.Root, Part> moved = new LinkedHashMap<>();
        Part rest = without(part, moved);
        List<Part> all = new ArrayList<>(moved.values());
        all.add(rest);
        return Part.sequence(all);
    }

    private Part without(Part part, Map<Path.Root, Part> moved) {
        if (part instanceof Part.Repeat repeat) {
            return new Part.Repeat(turn(repeat.body()), repeat.place());
        } else if (part instanceof Part.Local local && lost.contains(local.variable())) {
            boolean kept = local.value() != null && local.value().root().kind() != Path.Kind.LOCAL;
            moved.putIfAbsent(local.variable(), kept ? local : new Part.Local(local.variable(), null));
            return Part.NOTHING;
        }
        return part.map(each -> without(each, moved));
    }
}
