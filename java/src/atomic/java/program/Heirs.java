package atomic.java.program;

import java.util.ArrayList;
import java.util.HashMap;
import java.util.HashSet;
import java.util.List;
import java.util.Map;
import java.util.Set;

/**
 * The classes that have methods from a hidden base, which is there for those below it: nobody outside knows an object as one
 * of the base, so a method of it is judged as the one of its heirs. Where all classes below are alike, that is the base's
 * own. Where they differ in a method, what the inherited one does depends on the heir.
 */
public final class Heirs {
    /** Of more heirs a method is judged as that of any of them. */
    private static final int MOST_APART = 16;

    private final Families families;
    private final Map<JavaClass, List<JavaClass>> nearest = new HashMap<>();
    private final Map<JavaClass, Boolean> differing = new HashMap<>();

    public Heirs(Program program, Families families) {
        this.families = families;
        for (JavaClass each : program.classes()) {
            if (!each.isHiddenBase() && !each.symbol().getSimpleName().isEmpty()) {
                for (JavaClass above = families.above(each); above != null && above.isHiddenBase();
                        above = families.above(above)) {
                    nearest.computeIfAbsent(above, key -> new ArrayList<>()).add(each);
                }
            }
        }
    }

    /** Whether some class that callers know has this method from its hidden base. */
    public boolean has(JavaMethod method) {
        return below(method.owner()).stream().anyMatch(each -> families.implementation(each, method) == method);
    }

    /** The classes of which each has the method in a way of its own; none where they are alike, or too many. */
    public List<JavaClass> apart(JavaMethod method) {
        if (!method.isVirtual() || !differ(method.owner())) {
            return List.of();
        }
        List<JavaClass> all = below(method.owner()).stream().filter(each -> families.implementation(each, method) == method).toList();
        return all.size() > MOST_APART ? List.of() : all;
    }

    /** The classes nearest below a base that aren't such bases themselves. */
    private List<JavaClass> below(JavaClass base) {
        return nearest.getOrDefault(base, List.of());
    }

    /** Whether a call on one's own object, in a method of the base, runs different methods in the classes below it. */
    private boolean differ(JavaClass base) {
        return below(base).size() > 1 && differing.computeIfAbsent(base, key -> {
            for (JavaClass home = base; home != null; home = families.above(home)) {
                if (home.methods().stream().filter(JavaMethod::isVirtual).anyMatch(each -> implementations(each, base).size() > 1)) {
                    return true;
                }
            }
            return false;
        });
    }

    private Set<JavaMethod> implementations(JavaMethod method, JavaClass base) {
        Set<JavaMethod> found = new HashSet<>();
        below(base).forEach(each -> found.add(families.implementation(each, method)));
        return found;
    }
}
