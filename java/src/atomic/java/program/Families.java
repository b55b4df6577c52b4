package atomic.java.program;

import atomic.java.skeleton.Shape;
import java.util.ArrayList;
import java.util.HashMap;
import java.util.HashSet;
import java.util.LinkedHashMap;
import java.util.List;
import java.util.Map;
import java.util.Set;
import java.util.stream.Collectors;
import javax.lang.model.element.Element;
import javax.lang.model.element.Modifier;
import javax.lang.model.element.TypeElement;
import javax.lang.model.element.VariableElement;
import javax.lang.model.type.DeclaredType;
import javax.lang.model.type.TypeKind;
import javax.lang.model.type.TypeMirror;

/**
 * Methods that override each other: in a skeleton they have one name and parameters of the same classes. Overloaded
 * methods, of which a skeleton has none, get names of their own.
 */
public final class Families {
    private static final Set<String> VALUES = Set.of("java.lang.String", "java.lang.Integer", "java.lang.Long",
        "java.lang.Short", "java.lang.Byte", "java.lang.Character", "java.lang.Boolean", "java.lang.Double",
        "java.lang.Float", "java.math.BigInteger", "java.math.BigDecimal", "java.lang.CharSequence",
        "java.lang.Number");

    private static final int MOST_PARAMETERS = 14;

    private final Program program;
    private final Map<JavaMethod, JavaMethod> roots = new HashMap<>();
    private final Map<String, String> spellings = new HashMap<>();
    private final Map<String, Integer> numbers = new HashMap<>();
    private final Set<JavaClass> extended = new HashSet<>();
    private final Map<TypeElement, Boolean> values = new HashMap<>();
    private final Map<Set<String>, Map<JavaClass, List<JavaMethod>>> named = new HashMap<>();

    public Families(Program program) {
        this.program = program;
        program.classes().forEach(each -> extended.add(above(each)));
    }

    /** The method furthest up among the classes that this one overrides; it itself where it overrides none. */
    public JavaMethod root(JavaMethod method) {
        JavaMethod known = roots.get(method);
        if (known == null) {
            known = method;
            for (JavaMethod above : overridden(method)) {
                known = root(above);
            }
            roots.put(method, known);
        }
        return known;
    }

    /** The method of the nearest class above that it overrides, if there is one. */
    public List<JavaMethod> overridden(JavaMethod method) {
        if (!method.isVirtual() || method.owner().isInterface()) {
            return List.of();
        }
        for (JavaClass above = above(method.owner()); above != null; above = above(above)) {
            for (JavaMethod other : program.overriding().named(above, method.symbol().getSimpleName())) {
                if (other.isVirtual() && overrides(method, other, method.owner())) {
                    return List.of(other);
                }
            }
        }
        return List.of();
    }

    public boolean overrides(JavaMethod method, JavaMethod other, JavaClass self) {
        return program.overriding().overrides(method, other, self);
    }

    /** The class of the sources that a class extends, or null. */
    public JavaClass above(JavaClass each) {
        return each.isInterface() ? null : program.find(each.symbol().getSuperclass());
    }

    /** The method that runs for an object of class {@code self}, or null where it isn't at hand. */
    public JavaMethod implementation(JavaClass self, JavaMethod wanted) {
        for (JavaClass each = self; each != null; each = above(each)) {
            for (JavaMethod own : program.overriding().named(each, wanted.symbol().getSimpleName())) {
                if (!own.isAbstract() && (own == wanted || own.isVirtual() && overrides(own, wanted, self))) {
                    return own;
                }
            }
        }
        return defaultOf(self, wanted);
    }

    /**
     * Whether no object at hand runs this method: its class is abstract and hidden, and each class below that objects are
     * made of has a method of its own in its place. What {@code super} calls is a copy of it.
     */
    public boolean isAlwaysReplaced(JavaMethod method) {
        if (!method.isVirtual() || !method.owner().isHiddenBase()) {
            return false;
        }
        List<JavaClass> below = below(method.owner()).stream().filter(each -> each != method.owner()
            && !each.symbol().getModifiers().contains(Modifier.ABSTRACT)).toList();
        return !below.isEmpty() && below.stream().allMatch(each -> implementation(each, method) != method);
    }

    private JavaMethod defaultOf(JavaClass self, JavaMethod wanted) {
        List<JavaMethod> found = new ArrayList<>();
        for (JavaClass each : program.overriding().above(self)) {
            if (each.isInterface()) {
                for (JavaMethod own : program.overriding().named(each, wanted.symbol().getSimpleName())) {
                    if (!own.isAbstract() && own.isVirtual() && (own == wanted || overrides(own, wanted, self))) {
                        found.add(own);
                    }
                }
            }
        }
        return found.stream().filter(one -> found.stream().noneMatch(other -> other != one
            && isBelow(other.owner(), one.owner()))).findFirst().orElse(null);
    }

    /** Whether a class is another one or below it. */
    public boolean isBelow(JavaClass one, JavaClass other) {
        return program.overriding().isBelow(one, other);
    }

    /** A class and all below it, in the order of the sources. */
    public List<JavaClass> below(JavaClass each) {
        return program.overriding().below(each);
    }

    /** A class, and all above and below it, in the order of the sources. */
    public List<JavaClass> kin(JavaClass each) {
        return program.overriding().kin(each);
    }

    /** The methods of such names, with one parameter at most, that objects of a class or of its kin have. */
    public List<JavaMethod> named(JavaClass known, Set<String> names) {
        return named.computeIfAbsent(names, key -> new HashMap<>()).computeIfAbsent(known, key -> kin(known).stream()
            .flatMap(each -> each.methods().stream()).filter(method -> method.isVirtual() && !method.isAbstract()
                && names.contains(method.symbol().getSimpleName().toString()) && method.symbol().getParameters().size() <= 1)
            .toList());
    }

    /** How a skeleton spells the name of a method. */
    public String name(JavaMethod method) {
        JavaMethod root = root(method);
        String java = method.symbol().getSimpleName().toString();
        boolean apart = method.isPrivate() && (above(method.owner()) != null || extended.contains(method.owner()));
        String key = java + erased(root) + (apart ? method.owner().shape().name() : "");
        return spellings.computeIfAbsent(key, word -> numbers.merge(java, 1, Integer::sum) == 1
            ? program.names().plain(java) : program.names().invent(java + "_" + numbers.get(java), java));
    }

    private String erased(JavaMethod method) {
        return method.symbol().getParameters().stream()
            .map(each -> program.attribution().types().erasure(each.asType()).toString())
            .collect(Collectors.joining(",", "(", ")"));
    }

    /** The parameters that may name a lock, with the skeleton's class of each. */
    public Map<VariableElement, Shape> parameters(JavaMethod method) {
        Map<VariableElement, Shape> kept = new LinkedHashMap<>();
        List<? extends VariableElement> own = method.symbol().getParameters();
        List<? extends VariableElement> above = root(method).symbol().getParameters();
        for (int k = 0; k < own.size() && kept.size() < MOST_PARAMETERS; k++) {
            Shape shape = shape(above.get(k).asType());
            if (shape != null) {
                kept.put(own.get(k), shape);
            }
        }
        return kept;
    }

    /** The skeleton's class for a type; null for values, which name no lock. */
    public Shape shape(TypeMirror type) {
        TypeMirror erased = program.attribution().types().erasure(type);
        if (erased.getKind() == TypeKind.ARRAY) {
            return program.object();
        } else if (!(erased instanceof DeclaredType declared) || declared.getKind() == TypeKind.ERROR) {
            return null;
        }
        JavaClass known = program.find(erased);
        TypeElement symbol = (TypeElement) ((DeclaredType) erased).asElement();
        return known != null ? known.shape() : values.computeIfAbsent(symbol, Families::isValue) ? null : program.object();
    }

    private static boolean isValue(TypeElement symbol) {
        return VALUES.contains(symbol.getQualifiedName().toString()) || symbol.getAnnotationMirrors().stream()
            .anyMatch(each -> each.getAnnotationType().toString().equals("java.lang.FunctionalInterface"));
    }

    /** Whether a static member belongs to the class alone. */
    public static boolean isStatic(Element symbol) {
        return symbol.getModifiers().contains(Modifier.STATIC);
    }
}
