package atomic.java.driver;

import atomic.java.places.Notes;
import atomic.java.program.JavaMethod;
import atomic.java.skeleton.Method;
import atomic.java.translation.Methods;
import java.util.ArrayList;
import java.util.HashMap;
import java.util.HashSet;
import java.util.List;
import java.util.Map;
import java.util.Set;
import java.util.function.Predicate;
import java.util.stream.Collectors;

/** The figures of a run: how far the skeleton is from the methods, and what these were found to be. */
final class Summary {
    private static final Set<String> ATOMIC = Set.of("const", "mover", "atomic");

    private final Notes notes;
    private final Methods all;
    private final Map<JavaMethod, List<Method>> methods = new HashMap<>();

    Summary(Notes notes, Methods all) {
        this.notes = notes;
        this.all = all;
        all.judged().forEach((method, java) -> {
            if (!java.isConstructor()) {
                methods.computeIfAbsent(java, key -> new ArrayList<>()).add(method);
            }
        });
    }

    /** The line with the figures; {@code promised} methods say that they are atomic. Each method counts once. */
    String line(Judging judging, int promised) {
        long approximated = methods.keySet().stream().filter(notes::approximates).count();
        long assumed = methods.keySet().stream()
            .filter(each -> notes.assumes(each) && !notes.approximates(each)).count();
        Set<Object> refused = origins(each -> each.atomic() && !ATOMIC.contains(judging.found(each)));
        Set<Object> errors = origins(each -> judging.found(each).equals("error"));
        errors.addAll(refused);
        long atomic = methods.entrySet().stream().filter(each -> !refused.contains(each.getKey())
            && each.getValue().stream().allMatch(one -> ATOMIC.contains(judging.found(one)))).count();
        return methods.size() + " methods: " + (methods.size() - approximated - assumed) + " exact, " + assumed
            + " assumed, " + approximated + " approximated; " + promised + " promise to be atomic: " + (promised
            - refused.size()) + " are, " + refused.size() + " refused; " + atomic + " found atomic, " + errors.size()
            + " errors";
    }

    /** The Java methods that have a method of the skeleton that is such. */
    private Set<Object> origins(Predicate<Method> wanted) {
        return all.written().stream().filter(wanted).map(all::origin).collect(Collectors.toCollection(HashSet::new));
    }
}
