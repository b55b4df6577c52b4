package atomic.java.translation;

import atomic.java.program.JavaClass;
import atomic.java.program.JavaMethod;
import atomic.java.skeleton.Part;
import java.util.ArrayList;
import java.util.List;

/** What others can see of a part: neither a second name for an object, nor a new one that only keeps values, nor what only computes. */
record Steps(Services services) {

    /** The steps and regions of a part, in the order in which they are written. */
    List<Part> of(Part part) {
        List<Part> found = new ArrayList<>();
        collect(part, found);
        return found;
    }

    private void collect(Part part, List<Part> found) {
        boolean idle = part instanceof Part.Local || part instanceof Part.Call call && isMaking(call);
        if (part.parts().isEmpty() && !part.isNothing() && !idle || part instanceof Part.Region) {
            found.add(part);
        }
        part.parts().forEach(each -> collect(each, found));
    }

    private boolean isMaking(Part.Call call) {
        JavaMethod method = services.methods().judged().get(call.target());
        if (services.methods().origin(call.target()) instanceof JavaClass begun
                && services.methods().initialiser(begun) == call.target()) {
            return services.computing().only(begun);
        }
        return method != null && (method.isConstructor() || services.computing().only(method));
    }
}
