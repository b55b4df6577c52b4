package atomic.java.ownership;

import atomic.java.attribution.Attribution;
import atomic.java.library.Choice;
import atomic.java.passes.Inference;
import atomic.java.places.Notes;
import atomic.java.program.JavaClass;
import atomic.java.program.JavaMethod;
import atomic.java.program.Program;
import com.sun.source.tree.ClassTree;
import com.sun.source.tree.ConditionalExpressionTree;
import com.sun.source.tree.ExpressionTree;
import com.sun.source.tree.LambdaExpressionTree;
import com.sun.source.tree.MemberSelectTree;
import com.sun.source.tree.MethodInvocationTree;
import com.sun.source.tree.NewArrayTree;
import com.sun.source.tree.NewClassTree;
import com.sun.source.tree.ReturnTree;
import com.sun.source.tree.Tree;
import com.sun.source.tree.TypeCastTree;
import com.sun.source.tree.VariableTree;
import com.sun.source.util.TreeScanner;
import java.util.HashMap;
import java.util.HashSet;
import java.util.List;
import java.util.Map;
import java.util.Set;
import java.util.function.Predicate;
import javax.lang.model.element.Element;
import javax.lang.model.element.ElementKind;
import javax.lang.model.element.ExecutableElement;
import javax.lang.model.element.Modifier;
import javax.lang.model.element.VariableElement;
import javax.lang.model.type.TypeMirror;

/**
 * Which objects are known to one holder alone: those in a private field that are made for it and never get away from it,
 * and those in a local as long as they haven't got away. Such an object's contents are the holder's.
 */
public final class Ownership {
    private final Program program;
    private final Attribution attribution;
    private final Uses uses;
    private final Escape escape;
    private final Looks looks;
    private final Sites sites;
    private final LocalFunctions localFunctions;
    private final Comparators comparators;
    private final Brought brought;
    private final Taken taken;
    private InnerOwners inner;
    private UnchangedParts unchangedParts;
    private final Map<VariableElement, String> made = new HashMap<>();
    private final Map<JavaMethod, String> given = new HashMap<>();
    private final Map<VariableElement, Long> escapes = new HashMap<>();
    private final Map<VariableElement, Boolean> owned = new HashMap<>();
    private final Map<VariableElement, List<Tree>> exits = new HashMap<>();
    private final Map<Element, VariableElement> confined = new HashMap<>();
    private final Set<VariableElement> shared = new HashSet<>();
    private static final String UNKNOWN = "";
    private static final Set<String> PLAIN_MAPS = Set.of("java.util.HashMap", "java.util.LinkedHashMap", "java.util.TreeMap", "java.util.IdentityHashMap", "java.util.WeakHashMap");

    public Ownership(Program program, Uses uses) {
        this.program = program;
        this.uses = uses;
        attribution = program.attribution();
        escape = new Escape(program, uses);
        looks = new Looks(program, uses, escape);
        sites = new Sites(program);
        localFunctions = new LocalFunctions(program, uses, escape);
        comparators = new Comparators(program, this);
        brought = new Brought(program, uses, sites);
        taken = new Taken(program, this);
        escape.knows(localFunctions::isHandedOn, taken::is);
    }

    Uses uses() {
        return uses;
    }

    Sites sites() {
        return sites;
    }

    public Escape escape() {
        return escape;
    }

    /** The functions in locals that are only called. */
    public LocalFunctions localFunctions() {
        return localFunctions;
    }

    /** The comparators whose functions are at hand. */
    public Comparators comparators() {
        return comparators;
    }

    /** The locals that take the object of a field for good. */
    public Taken taken() {
        return taken;
    }

    /** The collections that code outside brings. */
    public Brought brought() {
        return brought;
    }

    /**
     * Finds the fields whose objects stay within their classes, under whatever names, and what is within such objects;
     * {@code asked} says which methods are asked to be atomic.
     */
    public void confine(Predicate<JavaMethod> asked) {
        confine();
        inner = new InnerOwners(program, this, asked);
        inner.find();
        inner.names().forEach(confined::putIfAbsent);
        unchangedParts = new UnchangedParts(program, this, asked);
    }

    /** What objects of private classes are made of, and nobody changes. */
    public UnchangedParts unchangedParts() {
        return unchangedParts;
    }

    /** The field whose contents what an expression gives is a part of, such as a list in a map of lists; null where that isn't known. */
    public VariableElement inner(Tree tree) {
        return inner.of(tree);
    }

    /** Whether a call takes a thing that is within a field's object out for good, so that its caller alone has it. */
    public boolean isTakenOut(Tree call) {
        return inner.isTaken(call);
    }

    /** Whether a local has such a thing, and nothing else. */
    public boolean hasTakenOut(Element local) {
        return local instanceof VariableElement variable
            && local.getKind() == ElementKind.LOCAL_VARIABLE && uses.isSettled(variable) && uses.assignments(local).size() == 1
            && uses.assignments(local).stream().allMatch(each -> each.value() != null && inner.isTaken(Uses.bare(each.value())));
    }

    private void confine() {
        Map<JavaClass, List<MethodInvocationTree>> clones = Clones.byClass(program, uses);
        for (JavaClass each : program.classes()) {
            List<MethodInvocationTree> copying = program.overriding().kin(each).stream().flatMap(kin ->
                clones.getOrDefault(kin, List.of()).stream()).toList();
            for (Element member : each.symbol().getEnclosedElements()) {
                if (member instanceof VariableElement field && field.getKind() == ElementKind.FIELD && !isOpen(field)
                        && program.library().hasContents(field.asType())) {
                    confine(field, copying);
                }
            }
        }
    }

    private void confine(VariableElement field, List<MethodInvocationTree> copying) {
        Confinement confinement = new Confinement(program, this, sites, field);
        Set<Element> holders = confinement.holders();
        if (Clones.share(field, copying, program, uses, sites)) {
            shared.add(field);
        }
        if (holders != null) {
            holders.forEach(each -> confined.put(each, field));
            made.put(field, confinement.made());
            owned.put(field, true);
        }
    }

    /** Whether two objects may share what a field holds, since one is a copy of the other, field by field. */
    public boolean isShared(VariableElement field) {
        return shared.contains(field);
    }

    /** Objects that are only made for a library's wrapper. */
    public Wrapped wrapped() {
        return new Wrapped(program, escape, sites);
    }

    /** Whether all that a field holds is given by calls on objects of classes at hand, such as their own iterators. */
    public boolean isGivenHere(VariableElement field) {
        return new GivenHere(program, uses, sites).is(field);
    }

    /** Whether a method only looks at the array in its parameter. */
    public boolean onlyLooks(VariableElement parameter) {
        return looks.only(parameter);
    }

    /** Whether some code at hand calls a method by its name. */
    public boolean isCalled(JavaMethod method) {
        return !sites.of(method.symbol()).isEmpty() || sites.isReferenced(method.symbol());
    }

    /** The field whose object a variable holds, or a method gives; null where that may be another one. */
    public VariableElement holding(Element name) {
        return confined.get(name);
    }

    /**
     * The class that objects of a field are made of, where all are made by {@code new} or the like, and none is given in
     * from outside; else null. An array is {@code []}.
     */
    public String made(VariableElement field) {
        String known = made.get(field);
        if (known == null) {
            made.put(field, UNKNOWN);
            known = findMade(field);
            made.put(field, known);
        }
        return known.isEmpty() ? null : known;
    }

    private String findMade(VariableElement field) {
        String found = UNKNOWN;
        if (field.getKind() == ElementKind.FIELD && isOpen(field) && !field.getModifiers().contains(Modifier.FINAL)) {
            return UNKNOWN;
        }
        for (Uses.Assignment each : uses.assignments(field)) {
            String one = each.value() == null ? null : fresh(each.value());
            if (one == null) {
                return UNKNOWN;
            }
            found = one.equals("null") ? found : found.isEmpty() || found.equals(one) ? one : "java.lang.Object";
        }
        return found;
    }

    /** The class of the new object that an expression gives, {@code null} for no object at all; else null. */
    public String fresh(ExpressionTree tree) {
        ExpressionTree bare = Uses.bare(tree);
        if (bare.getKind() == Tree.Kind.NULL_LITERAL) {
            return "null";
        } else if (bare instanceof NewArrayTree) {
            return "[]";
        } else if (bare instanceof NewClassTree made) {
            JavaMethod constructor = program.method(attribution.element(made));
            boolean leaks = constructor != null && escape.selves().from(constructor) != Escape.NEVER;
            return made.getClassBody() != null || leaks ? null : name(attribution.type(made));
        } else if (bare instanceof TypeCastTree cast) {
            return fresh(cast.getExpression());
        } else if (bare instanceof ConditionalExpressionTree either) {
            String left = fresh(either.getTrueExpression());
            String right = fresh(either.getFalseExpression());
            return left == null || right == null ? null : left.equals("null") ? right
                : right.equals("null") || left.equals(right) ? left : "java.lang.Object";
        } else if (bare instanceof MethodInvocationTree call) {
            return freshCall(call);
        }
        Element symbol = attribution.element(bare);
        if (taken.isAlone(symbol, attribution.start(bare))) {
            return taken.made(symbol);
        }
        boolean local = symbol instanceof VariableElement && symbol.getKind() == ElementKind.LOCAL_VARIABLE;
        boolean handedOn = local && attribution.start(bare) <= escapes((VariableElement) symbol)
            && uses.of(symbol).stream().filter(use -> escape.from(use) != Escape.NEVER).skip(1).findAny().isEmpty();
        return handedOn ? made((VariableElement) symbol) : null;
    }

    private String freshCall(MethodInvocationTree call) {
        if (!(attribution.element(call) instanceof ExecutableElement symbol)) {
            return null;
        } else if (program.method(symbol) != null) {
            return Clones.isMaker(program.method(symbol), sites, program) && Clones.isCopy(call, program, uses)
                ? "java.lang.Object" : returned(program.method(symbol));
        }
        if (Clones.isOwn(call, program)) {
            return Clones.isCopy(call, program, uses) ? "java.lang.Object" : null;
        }
        boolean copiesArray = symbol.getSimpleName().contentEquals("clone")
            && call.getMethodSelect() instanceof MemberSelectTree select && attribution.type(select.getExpression())
                .getKind() == javax.lang.model.type.TypeKind.ARRAY;
        boolean constants = symbol.getEnclosingElement().getKind() == ElementKind.ENUM
            && symbol.getSimpleName().contentEquals("values") && symbol.getParameters().isEmpty();
        if (copiesArray || constants || symbol.getReturnType().getKind() == javax.lang.model.type.TypeKind.ARRAY
                && List.of("toCharArray", "getBytes", "split", "toArray").contains(symbol.getSimpleName().toString())
                && call.getArguments().isEmpty()) {
            return "[]";
        }
        if (symbol.getSimpleName().contentEquals("newSetFromMap") && call.getArguments().size() == 1) {
            return PLAIN_MAPS.contains(String.valueOf(fresh(call.getArguments().get(0)))) ? "java.util.HashSet" : null;
        }
        if (Views.givesItself(symbol) && call.getMethodSelect() instanceof MemberSelectTree select) {
            return fresh(select.getExpression());
        }
        Choice choice = escape.choose(call.getMethodSelect(), symbol);
        return choice.makes();
    }

    /** Whether a method gives a new array or collection at each return. */
    boolean givesNew(JavaMethod method) {
        return isNew(returned(method));
    }

    /** The class of the new array or collection that a method gives at each return, where no other method may run in its place; else null. */
    private String returned(JavaMethod method) {
        String known = given.get(method);
        if (known == null) {
            given.put(method, UNKNOWN);
            known = method.tree().getBody() == null || isOverridden(method) ? UNKNOWN : findReturned(method);
            given.put(method, known);
        }
        return known.isEmpty() ? null : known;
    }

    /** Whether a class is one of arrays or collections that have all of their contents themselves: a new one is its maker's. */
    public static boolean isNew(String made) {
        return made != null && (made.equals("[]") || made.startsWith("java.util.") && !made.startsWith("java.util.stream.")
            && !made.equals("java.util.Collections.Synchronized"));
    }

    private boolean isOverridden(JavaMethod method) {
        return method.isVirtual() && program.overriding().isOverridden(method);
    }

    private String findReturned(JavaMethod method) {
        Set<String> found = new HashSet<>();
        new TreeScanner<Void, Void>() {
            @Override
            public Void scan(Tree tree, Void nothing) {
                return tree instanceof ClassTree || tree instanceof LambdaExpressionTree ? null : super.scan(tree, nothing);
            }

            @Override
            public Void visitReturn(ReturnTree tree, Void nothing) {
                String one = tree.getExpression() == null ? null : fresh(tree.getExpression());
                found.add(one == null ? UNKNOWN : one);
                return super.visitReturn(tree, nothing);
            }
        }.scan(method.tree().getBody(), null);
        found.remove("null");
        String one = found.size() == 1 ? found.iterator().next() : UNKNOWN;
        return isNew(one) ? one : UNKNOWN;
    }

    private String name(TypeMirror type) {
        return type == null ? null : attribution.types().erasure(type).toString();
    }

    /**
     * Whether anybody may touch a field, or get at what it holds by a record's accessor, which nobody wrote; what the
     * package's other files and classes below do is told as an assumption.
     */
    static boolean isOpen(VariableElement field) {
        return field.getModifiers().contains(Modifier.PUBLIC)
            || field.getEnclosingElement().getKind() == ElementKind.RECORD && !field.getModifiers().contains(Modifier.STATIC);
    }

    /** Whether the contents of what a field holds are the field's: it is hidden, made for it, and never gets away. */
    public boolean owns(VariableElement field) {
        return owned.computeIfAbsent(field, this::findOwned);
    }

    private boolean findOwned(VariableElement field) {
        if (isOpen(field) || made(field) == null) {
            return false;
        }
        List<Tree> leaks = uses.of(field).stream().filter(use -> escape.from(use) != Escape.NEVER).toList();
        boolean few = program.options().majority() && 100 * leaks.size() <= (100 - Inference.MOST) * uses.of(field).size();
        if (few) {
            leaks.forEach(use -> program.notes().tell(Notes.Kind.APPROXIMATED, field, attribution.place(use),
                "majority: the contents of " + field + " get away here, which isn't judged"));
        }
        return few || leaks.isEmpty();
    }

    /** Where the objects of a hidden field get out, of those that are made for it; nowhere where they aren't. */
    public List<Tree> exits(VariableElement field) {
        List<Tree> known = exits.get(field);
        if (known == null) {
            known = findExits(field);
            exits.put(field, known);
        }
        return known;
    }

    private List<Tree> findExits(VariableElement field) {
        boolean hidden = field.getKind() == ElementKind.FIELD && !isOpen(field) && made(field) != null;
        return hidden ? uses.of(field).stream().filter(use -> escape.from(use) != Escape.NEVER).toList() : List.of();
    }

    /** The offset from which on the object in a local may be known to others; 0 where it isn't a new one. */
    public long escapes(VariableElement local) {
        Long known = escapes.get(local);
        if (known == null) {
            escapes.put(local, 0L);
            known = findEscape(local);
            escapes.put(local, known);
        }
        return known;
    }

    private long findEscape(VariableElement local) {
        VariableTree declaration = uses.declaration(local);
        if (declaration == null || local.getKind() != ElementKind.LOCAL_VARIABLE || made(local) == null) {
            return 0;
        }
        return uses.of(local).stream().mapToLong(use -> escape.earliest(use, declaration)).min().orElse(Escape.NEVER);
    }
}
