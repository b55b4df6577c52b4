package atomic.java.passes;

import atomic.java.skeleton.Method;
import atomic.java.skeleton.Part;
import java.util.Collection;

/**
 * Regions of readers. Readers run beside each other, and only look at what the lock guards, so the lock counts as any other.
 * Where a region, or what it calls, writes a guarded field, the lock counts as one without a name, which guards nothing.
 */
public final class ReadLocks {
    private final Collection<Method> methods;
    private Doers writers;

    public ReadLocks(Collection<Method> methods) {
        this.methods = methods;
    }

    /** Takes the names of the locks whose readers write. */
    public void run() {
        if (methods.stream().anyMatch(method -> hasReaders(method.body()))) {
            writers = new Doers(methods, ReadLocks::isWrite);
            methods.forEach(method -> method.body(rename(method.body())));
        }
    }

    private static boolean hasReaders(Part part) {
        return part instanceof Part.Region region && region.mode() == Part.Mode.SHARED
            || part.parts().stream().anyMatch(ReadLocks::hasReaders);
    }

    private static boolean isWrite(Part part) {
        return part instanceof Part.Access access && access.write() && access.field().guard() != null;
    }

    private boolean writes(Part part) {
        return isWrite(part) || part instanceof Part.Call call && writers.mayCall(call.target())
            || part.parts().stream().anyMatch(this::writes);
    }

    private Part rename(Part part) {
        if (part instanceof Part.Region region && region.mode() == Part.Mode.SHARED && writes(region.body())) {
            return new Part.Region(null, Part.Mode.SHARED, rename(region.body()), region.place());
        }
        return part.map(this::rename);
    }
}
