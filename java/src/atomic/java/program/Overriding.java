package atomic.java.program;

import java.util.ArrayList;
import java.util.Comparator;
import java.util.HashMap;
import java.util.HashSet;
import java.util.LinkedHashSet;
import java.util.List;
import java.util.Map;
import java.util.Set;
import java.util.stream.Stream;
import javax.lang.model.element.Element;
import javax.lang.model.element.Modifier;
import javax.lang.model.element.Name;
import javax.lang.model.type.DeclaredType;

/**
 * Which classes of the sources are below which, and which methods stand in whose place. Only classes below a method's own
 * can have one in its place, so that no other method of its name is looked at: in a thousand classes with a {@code get} none
 * asks the others. What has the place of a method is found by way of the methods that have it themselves, since javac walks
 * over all classes between the two that it is asked about.
 */
public final class Overriding {
    private final Program program;
    private final Map<JavaClass, Integer> numbers = new HashMap<>();
    private final Map<Element, Set<JavaClass>> above = new HashMap<>();
    private final Map<JavaClass, List<JavaClass>> below = new HashMap<>();
    private final Map<JavaClass, Map<Name, List<JavaMethod>>> named = new HashMap<>();
    private final Map<Element, List<Element>> supers = new HashMap<>();
    private final Map<JavaMethod, List<JavaMethod>> overriders = new HashMap<>();
    private final Set<JavaMethod> overriding = new HashSet<>();
    private Map<JavaMethod, List<JavaMethod>> nearest;

    Overriding(Program program) {
        this.program = program;
        for (JavaClass each : program.classes()) {
            numbers.put(each, numbers.size());
            above(each.symbol()).forEach(one -> below.computeIfAbsent(one, key -> new ArrayList<>()).add(each));
        }
    }

    /** The classes of the sources that a class is or extends, through those of libraries too. */
    private Set<JavaClass> above(Element symbol) {
        Set<JavaClass> found = above.get(symbol);
        if (found == null) {
            found = new HashSet<>();
            above.put(symbol, found);
            if (program.find(symbol) != null) {
                found.add(program.find(symbol));
            }
            for (Element each : supers(symbol)) {
                found.addAll(above(each));
            }
        }
        return found;
    }

    /** Whether a class is another one or below it. */
    boolean isBelow(JavaClass one, JavaClass other) {
        return above(one.symbol()).contains(other);
    }

    /** Whether a class of the sources is this one, or below it. */
    public boolean isAtHand(Element symbol) {
        return above.containsKey(symbol);
    }

    /** A class and all below it, in the order of the sources. */
    public List<JavaClass> below(JavaClass each) {
        return below.getOrDefault(each, List.of());
    }

    /** A class and all above it, in the order of the sources. */
    List<JavaClass> above(JavaClass each) {
        return above(each.symbol()).stream().sorted(Comparator.comparing(numbers::get)).toList();
    }

    /** A class, and all above and below it, in the order of the sources. */
    public List<JavaClass> kin(JavaClass each) {
        return Stream.concat(above(each.symbol()).stream(), below(each).stream()).distinct()
            .sorted(Comparator.comparing(numbers::get)).toList();
    }

    /** The methods of a name that a class has itself. */
    List<JavaMethod> named(JavaClass each, Name name) {
        return named.computeIfAbsent(each, key -> {
            Map<Name, List<JavaMethod>> all = new HashMap<>();
            key.methods().forEach(one -> all.computeIfAbsent(one.symbol().getSimpleName(), word -> new ArrayList<>()).add(one));
            return all;
        }).getOrDefault(name, List.of());
    }

    /** The methods that may run in the place of one, which isn't among them, in the order of the sources. */
    public List<JavaMethod> of(JavaMethod method) {
        List<JavaMethod> known = overriders.get(method);
        if (known == null) {
            Set<JavaMethod> found = new LinkedHashSet<>();
            if (handsOn(method)) {
                collect(method, found);
            } else {
                below(method.owner()).stream().filter(each -> each != method.owner())
                    .flatMap(each -> named(each, method.symbol().getSimpleName()).stream())
                    .filter(other -> overrides(other, method, other.owner())).forEach(found::add);
            }
            known = found.stream().sorted(Comparator.comparing(JavaMethod::place)).toList();
            overriders.put(method, known);
        }
        return known;
    }

    /** Whether some method may run in the place of one. */
    public boolean isOverridden(JavaMethod method) {
        return handsOn(method) ? !nearest().getOrDefault(method, List.of()).isEmpty() : !of(method).isEmpty();
    }

    /** Whether a method has the place of one of a class above. */
    public boolean overridesAny(JavaMethod method) {
        nearest();
        return overriding.contains(method);
    }

    /** Whether what has the place of a method that has the place of this one has its place too: no package is in between. */
    private boolean handsOn(JavaMethod method) {
        Set<Modifier> modifiers = method.symbol().getModifiers();
        return modifiers.contains(Modifier.PUBLIC) || modifiers.contains(Modifier.PROTECTED)
            || below(method.owner()).stream().allMatch(each -> home(each).equals(home(method.owner())));
    }

    private Element home(JavaClass each) {
        return program.attribution().elements().getPackageOf(each.symbol());
    }

    private void collect(JavaMethod method, Set<JavaMethod> found) {
        for (JavaMethod each : nearest().getOrDefault(method, List.of())) {
            if (found.add(each)) {
                collect(each, found);
            }
        }
    }

    /** By each method those that have its place, without those that have theirs. */
    private Map<JavaMethod, List<JavaMethod>> nearest() {
        if (nearest == null) {
            nearest = new HashMap<>();
            program.methods().stream().filter(each -> above(each.owner().symbol()).size() > 1).forEach(each ->
                climb(each, each.owner().symbol(), new HashSet<>()));
        }
        return nearest;
    }

    /** Looks for the methods whose place a method has, on each way up until there is one. */
    private void climb(JavaMethod method, Element from, Set<Element> seen) {
        for (Element each : supers(from).stream().filter(seen::add).toList()) {
            JavaClass known = program.find(each);
            List<JavaMethod> found = known == null ? List.of() : named(known, method.symbol().getSimpleName()).stream()
                .filter(other -> overrides(method, other, method.owner())).toList();
            found.forEach(other -> nearest.computeIfAbsent(other, key -> new ArrayList<>()).add(method));
            if (!found.isEmpty()) {
                overriding.add(method);
            } else if (!above(each).isEmpty()) {
                climb(method, each, seen);
            }
        }
    }

    /** The classes that a class extends itself. */
    private List<Element> supers(Element symbol) {
        return supers.computeIfAbsent(symbol, key -> program.attribution().types().directSupertypes(key.asType()).stream()
            .filter(DeclaredType.class::isInstance).map(each -> ((DeclaredType) each).asElement()).toList());
    }

    /** Whether a method has the place of another one in objects of class {@code self}. */
    boolean overrides(JavaMethod method, JavaMethod other, JavaClass self) {
        return program.attribution().elements().overrides(method.symbol(), other.symbol(), self.symbol());
    }
}
