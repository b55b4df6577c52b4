package atomic.java.translation;

import atomic.java.skeleton.Part;
import atomic.java.skeleton.Path;
import atomic.java.skeleton.Value;
import com.sun.source.tree.BlockTree;
import com.sun.source.tree.IfTree;
import com.sun.source.tree.LabeledStatementTree;
import com.sun.source.tree.StatementTree;
import com.sun.source.tree.Tree;
import java.util.ArrayList;
import java.util.Collections;
import java.util.HashMap;
import java.util.IdentityHashMap;
import java.util.LinkedHashMap;
import java.util.List;
import java.util.Map;
import java.util.Set;
import java.util.stream.Stream;

/**
 * Branches that leave a loop: what {@code if (found) { count--; return; }} does is done once, behind the turns, and not each
 * time round. Only a branch is taken out that surely leaves, and that stands in no region or {@code try} within the loop.
 */
final class Leavings {
    private final Services services;
    private final Map<Tree, List<Part>> open = new HashMap<>();

    Leavings(Services services) {
        this.services = services;
    }

    /** Writes a turn of a loop, and puts the branches that leave it elsewhere. */
    void within(StatementTree loop, List<Part> last, Runnable turn) {
        open.put(loop, last);
        try {
            turn.run();
        } finally {
            open.remove(loop);
        }
    }

    /** Notes a branch that leaves a loop. */
    void take(StatementTree branch, Part part) {
        if (branch == null || part.isNothing() || !Jumps.leaves(branch)) {
            return;
        }
        Tree each = services.attribution().parent(branch);
        while (each instanceof BlockTree || each instanceof IfTree || each instanceof LabeledStatementTree) {
            each = services.attribution().parent(each);
        }
        List<Part> last = open.get(each);
        if (last != null) {
            last.add(part);
        }
    }

    /** A turn without the branches that leave the loop; of these, too, none has another one in it from here on. */
    static Part without(Part turn, List<Part> last) {
        Set<Part> taken = Collections.newSetFromMap(new IdentityHashMap<>());
        taken.addAll(last);
        last.replaceAll(branch -> branch.map(each -> without(each, taken)));
        return taken.isEmpty() ? turn : without(turn, taken);
    }

    private static Part without(Part part, Set<Part> taken) {
        return taken.contains(part) ? Part.NOTHING : part.map(each -> without(each, taken));
    }

    /** What is done behind a loop, each part with the locals of a turn that it names: there they name what they did in the last one. */
    static List<Part> behind(Part turn, List<Part> last) {
        Map<Path.Root, Part> declared = new LinkedHashMap<>();
        declared(turn, declared);
        return last.stream().map(part -> {
            List<Part> all = new ArrayList<>();
            declared.forEach((local, declaration) -> {
                if (names(part, Set.of(local))) {
                    all.add(declaration);
                }
            });
            all.add(part);
            return Part.sequence(all);
        }).toList();
    }

    /** The locals that a part declares; one that is another name of a local of the same part names nothing elsewhere. */
    private static void declared(Part part, Map<Path.Root, Part> found) {
        if (part instanceof Part.Local local) {
            boolean kept = local.value() != null && local.value().root().kind() != Path.Kind.LOCAL;
            found.put(local.variable(), kept ? local : new Part.Local(local.variable(), null));
        }
        part.parts().forEach(each -> declared(each, found));
    }

    private static boolean names(Part part, Set<Path.Root> declared) {
        Stream<Path> paths = Stream.of();
        if (part instanceof Part.Access access) {
            paths = paths(access.receiver());
        } else if (part instanceof Part.Call call) {
            paths = Stream.concat(Stream.of(call.receiver()), call.arguments().stream()).flatMap(Leavings::paths);
        } else if (part instanceof Part.Region region && region.lock() != null) {
            paths = Stream.of(region.lock());
        } else if (part instanceof Part.Local local && local.value() != null) {
            paths = Stream.of(local.value());
        } else if (part instanceof Part.Wait wait && wait.lock() != null) {
            paths = Stream.of(wait.lock());
        }
        return paths.anyMatch(each -> declared.contains(each.root()))
            || part.parts().stream().anyMatch(each -> names(each, declared));
    }

    private static Stream<Path> paths(Value value) {
        if (value instanceof Value.Owned owned) {
            return Stream.concat(Stream.ofNullable(owned.own()), paths(owned.receiver()));
        } else if (value instanceof Value.Node node) {
            return paths(node.container());
        }
        return value == null ? Stream.of() : Stream.ofNullable(value.path());
    }
}
