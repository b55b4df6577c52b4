package atomic.java.passes;

import atomic.java.skeleton.Part;
import atomic.java.skeleton.Path;
import atomic.java.skeleton.Value;
import java.util.function.Predicate;
import java.util.stream.Stream;

/** Takes names out of a skeleton: a lock of such a name has none then, and of an object only its class is known. */
final class Forgetting {
    private final Predicate<Path> lost;

    /** Forgets the paths that are {@code lost}. */
    Forgetting(Predicate<Path> lost) {
        this.lost = lost;
    }

    /** The paths that a part names by itself, without those of its sub-parts. */
    static Stream<Path> paths(Part part) {
        if (part instanceof Part.Access access) {
            return paths(access.receiver());
        } else if (part instanceof Part.Call call) {
            return Stream.concat(Stream.of(call.receiver()), call.arguments().stream()).flatMap(Forgetting::paths);
        } else if (part instanceof Part.Region region) {
            return Stream.ofNullable(region.lock());
        } else if (part instanceof Part.Wait wait) {
            return Stream.ofNullable(wait.lock());
        }
        return part instanceof Part.Local local ? Stream.ofNullable(local.value()) : Stream.of();
    }

    private static Stream<Path> paths(Value value) {
        Stream<Path> inner = value instanceof Value.Node node ? paths(node.container())
            : value instanceof Value.Owned owned ? paths(owned.receiver()) : Stream.of();
        return Stream.concat(inner, value == null ? Stream.of() : Stream.ofNullable(value.path()));
    }

    /** A part without the lost names. */
    Part part(Part part) {
        if (part instanceof Part.Access access) {
            return new Part.Access(known(access.receiver()), access.field(), access.write(), access.place());
        } else if (part instanceof Part.Call call) {
            return new Part.Call(known(call.receiver()), call.target(), call.arguments().stream().map(this::known).toList(),
                call.place());
        } else if (part instanceof Part.Region region) {
            return new Part.Region(known(region.lock()), region.mode(), part(region.body()), region.place());
        } else if (part instanceof Part.Wait wait) {
            return new Part.Wait(known(wait.lock()), wait.kept(), wait.place());
        } else if (part instanceof Part.Local local) {
            return lost.test(Path.of(local.variable())) ? Part.NOTHING
                : new Part.Local(local.variable(), known(local.value()));
        }
        return part.map(this::part);
    }

    private Path known(Path path) {
        return path == null || lost.test(path) ? null : path;
    }

    private Value known(Value value) {
        if (value instanceof Value.Node node) {
            return new Value.Node(known(node.container()));
        } else if (value instanceof Value.Owned owned) {
            return new Value.Owned(known(owned.receiver()), owned.contents(), known(owned.own()));
        }
        return value instanceof Value.Named named && lost.test(named.path()) ? new Value.Opaque(named.type()) : value;
    }
}
