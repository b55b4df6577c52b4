package atomic.java.ownership;

import atomic.java.attribution.Attribution;
import atomic.java.program.JavaClass;
import atomic.java.program.JavaMethod;
import atomic.java.program.Program;
import com.sun.source.tree.ArrayAccessTree;
import com.sun.source.tree.AssignmentTree;
import com.sun.source.tree.BlockTree;
import com.sun.source.tree.ClassTree;
import com.sun.source.tree.ExpressionStatementTree;
import com.sun.source.tree.ExpressionTree;
import com.sun.source.tree.IdentifierTree;
import com.sun.source.tree.LambdaExpressionTree;
import com.sun.source.tree.MemberReferenceTree;
import com.sun.source.tree.MemberSelectTree;
import com.sun.source.tree.MethodInvocationTree;
import com.sun.source.tree.MethodTree;
import com.sun.source.tree.NewClassTree;
import com.sun.source.tree.Tree;
import com.sun.source.tree.VariableTree;
import com.sun.source.util.TreeScanner;
import java.util.ArrayList;
import java.util.HashMap;
import java.util.LinkedHashSet;
import java.util.List;
import java.util.Map;
import java.util.Set;
import java.util.function.Predicate;
import java.util.function.UnaryOperator;
import javax.lang.model.element.Element;
import javax.lang.model.element.ElementKind;
import javax.lang.model.element.ExecutableElement;
import javax.lang.model.element.Modifier;

/**
 * Where a method lets its own object get away, so that other threads may reach it from then on. To give it back to the caller
 * is no such place: what becomes of it then is seen where the method is called.
 */
public final class Selves {

    /** From which offset on others may know the object, and whether the method may give it back. */
    private record Fate(long from, boolean given) {
        static final Fate KEPT = new Fate(Escape.NEVER, false);
    }

    private final Program program;
    private final Attribution attribution;
    private final Escape escape;
    private final Uses uses;
    private final Map<JavaMethod, Fate> known = new HashMap<>();
    private final Map<JavaMethod, Fate> guesses = new HashMap<>();
    private final Set<JavaMethod> open = new LinkedHashSet<>();
    private final List<JavaMethod> round = new ArrayList<>();
    private final Keepers keepers;
    private final Map<Tree, Long> begun = new HashMap<>();
    private boolean guessed;
    private UnaryOperator<JavaClass> containers = each -> null;

    Selves(Program program, Uses uses, Escape escape) {
        this.program = program;
        this.uses = uses;
        this.escape = escape;
        attribution = program.attribution();
        keepers = new Keepers(program, uses);
    }

    /** From here on it is known which classes are those of a container's nodes. */
    void nodesAre(UnaryOperator<JavaClass> container) {
        containers = container;
        known.clear();
        begun.clear();
    }

    /** Whether the method, or one that overrides it, lets its object get away. */
    public boolean leaks(JavaMethod method) {
        return any(method, each -> from(each) != Escape.NEVER);
    }

    /** Whether the method, or one that overrides it, may give its object back. */
    boolean gives(JavaMethod method) {
        return any(method, each -> fate(each).given());
    }

    private boolean any(JavaMethod method, Predicate<JavaMethod> wanted) {
        return wanted.test(method)
            || method.isVirtual() && program.overriding().of(method).stream().anyMatch(wanted);
    }

    /** The offset in the method from which on its object may be known to others. */
    public long from(JavaMethod method) {
        return fate(method).from();
    }

    /**
     * What becomes of a method's object. Methods that call each other are looked at in rounds: in each the fate of one that is
     * being looked at is that of the round before, and in the first its object stays.
     */
    private Fate fate(JavaMethod method) {
        Fate before = known.get(method);
        if (before != null) {
            return before;
        } else if (!open.add(method)) {
            guessed = true;
            return guesses.getOrDefault(method, Fate.KEPT);
        }
        boolean outermost = open.size() == 1;
        do {
            if (outermost) {
                guessed = false;
                round.clear();
            }
            known.put(method, look(method));
            round.add(method);
        } while (outermost && isToBeRepeated());
        open.remove(method);
        return known.get(method);
    }

    /** Whether some guess of the round wasn't what was found, which is then the guess of the next one. */
    private boolean isToBeRepeated() {
        boolean same = !guessed || round.stream().allMatch(each ->
            guesses.getOrDefault(each, Fate.KEPT).equals(known.get(each)));
        if (!same) {
            round.forEach(each -> guesses.put(each, known.remove(each)));
            escape.forget();
            begun.clear();
        }
        return !same;
    }

    /**
     * Whether others may know a new object before a tree of its making has ended, which stands in a constructor or is run
     * before one. What only goes into a field of the object shows it to nobody.
     */
    public boolean isKnownBefore(Tree tree, Tree member, JavaClass owner) {
        long end = attribution.end(tree);
        if (member instanceof MethodTree constructor) {
            return run(owner) != Escape.NEVER || begun(constructor.getBody(), owner) < end;
        }
        return run(owner) < end || owner.methods().stream().anyMatch(each -> each.isConstructor() && isKnownFirst(each));
    }

    private static boolean isAbove(Tree statement) {
        return statement instanceof ExpressionStatementTree one && one.getExpression() instanceof MethodInvocationTree call
            && Uses.isName(call.getMethodSelect(), "super");
    }

    /** From which offset on others may know a new object by what runs before its constructors. */
    private long run(JavaClass owner) {
        return owner.tree().getMembers().stream().filter(Selves::runs).mapToLong(each -> begun(each, owner)).min()
            .orElse(Escape.NEVER);
    }

    private static boolean runs(Tree member) {
        return member instanceof VariableTree variable && !variable.getModifiers().getFlags().contains(Modifier.STATIC)
            || member instanceof BlockTree block && !block.isStatic();
    }

    private long begun(Tree tree, JavaClass owner) {
        Long before = begun.get(tree);
        if (before == null) {
            Scanner scanner = new Scanner(owner, true);
            scanner.scan(tree, null);
            before = scanner.found;
            begun.put(tree, before);
        }
        return before;
    }

    private Fate look(JavaMethod method) {
        Scanner scanner = new Scanner(method.owner(), false);
        if (method.tree().getBody() != null) {
            scanner.scan(method.tree().getBody(), null);
        }
        long found = method.isConstructor() ? Math.min(scanner.found, initialisers(method)) : scanner.found;
        return new Fate(method.isConstructor() && isKnownFirst(method) ? 0 : found, scanner.given);
    }

    /** Whether the constructor above lets the object go, so that others may know it before anything is done here. */
    private boolean isKnownFirst(JavaMethod constructor) {
        List<? extends Tree> all = constructor.tree().getBody().getStatements();
        return !all.isEmpty() && isAbove(all.get(0)) && begun(all.get(0), constructor.owner()) != Escape.NEVER;
    }

    /** A field's initialiser or a block of the class that lets the object go counts for the whole constructor. */
    private long initialisers(JavaMethod constructor) {
        for (Tree member : constructor.owner().tree().getMembers()) {
            Scanner scanner = new Scanner(constructor.owner(), false);
            if (runs(member)) {
                scanner.scan(member, null);
            }
            if (scanner.found != Escape.NEVER) {
                return 0;
            }
        }
        return Escape.NEVER;
    }

    /** Looks for uses of {@code this}, said or not. */
    private final class Scanner extends TreeScanner<Void, Void> {
        private final JavaClass self;
        /** Whether what knows the object may be put into a field of it; whatever is done with such a field lets it get away. */
        private final boolean putsAway;
        private long found = Escape.NEVER;
        private boolean given;

        Scanner(JavaClass self, boolean putsAway) {
            this.self = self;
            this.putsAway = putsAway;
        }

        /** A name of this object: it may get away by what is done with it, or be given back. */
        private void use(Tree name) {
            if (isPutAway(name)) {
                return;
            } else if (escape.within(name) != Escape.NEVER || putsAway && keepers.has(self) && !isOfField(name)) {
                leak(name);
            }
            given |= escape.from(name) != Escape.NEVER;
        }

        private boolean isPutAway(Tree tree) {
            return putsAway && keepers.isPutAway(tree, self);
        }

        /** Whether a name stands before that of a field. */
        private boolean isOfField(Tree name) {
            return attribution.parent(name) instanceof MemberSelectTree select
                && !(attribution.parent(select) instanceof MethodInvocationTree call && call.getMethodSelect() == select);
        }

        private void leak(Tree at) {
            Tree loop = null;
            for (Tree each = at; each != null && !(each instanceof ClassTree); each = attribution.parent(each)) {
                switch (each.getKind()) {
                    case WHILE_LOOP, DO_WHILE_LOOP, FOR_LOOP, ENHANCED_FOR_LOOP -> loop = each;
                    default -> { }
                }
            }
            found = Math.min(found, attribution.start(loop == null ? at : loop));
        }

        @Override
        public Void visitIdentifier(IdentifierTree tree, Void nothing) {
            boolean named = tree.getName().contentEquals("this") && !(attribution.parent(tree) instanceof MethodInvocationTree call
                && call.getMethodSelect() == tree);
            if (named || tree.getName().contentEquals("super") && attribution.parent(tree) instanceof MemberReferenceTree) {
                use(tree);
            }
            itself(tree);
            return null;
        }

        /** A field that may hold this object is one more name of it. */
        private void itself(Tree tree) {
            boolean done = putsAway && keepers.is(attribution.element(tree)) && !uses.isTarget(tree) && !isPutAway(tree);
            if (done && !keepers.isOnlyNamed(tree)) {
                leak(tree);
            } else if (uses.mayHoldItself(attribution.element(tree)) && !uses.isTarget(tree)) {
                use(tree);
            }
        }

        @Override
        public Void visitMemberSelect(MemberSelectTree tree, Void nothing) {
            if (uses.isThis(tree.getExpression())) {
                itself(tree);
            }
            boolean named = tree.getIdentifier().contentEquals("this") && attribution.element(tree) != null;
            if (named || tree.getIdentifier().contentEquals("super") && attribution.parent(tree) instanceof MemberReferenceTree) {
                use(tree);
            }
            return super.visitMemberSelect(tree, nothing);
        }

        @Override
        public Void visitMethodInvocation(MethodInvocationTree tree, Void nothing) {
            Element symbol = attribution.element(tree);
            boolean own = tree.getMethodSelect() instanceof IdentifierTree || isSuper(tree);
            if (own && symbol instanceof ExecutableElement && !symbol.getModifiers().contains(Modifier.STATIC)) {
                JavaMethod method = program.method(symbol);
                boolean begins = putsAway && method != null && method.isConstructor();
                if (method != null && (begins ? isBegun(method) : leaks(method) || putsAway && keepers.has(self))) {
                    leak(tree);
                } else if (method != null && gives(method)) {
                    use(tree);
                } else if (method == null && symbol.getKind() == ElementKind.METHOD
                        && escape.mayKeep(escape.choose(tree.getMethodSelect(), (ExecutableElement) symbol))) {
                    leak(tree);
                }
            }
            return super.visitMethodInvocation(tree, nothing);
        }

        /** Whether others may know an object behind one of its constructors. */
        private boolean isBegun(JavaMethod constructor) {
            return run(constructor.owner()) != Escape.NEVER
                || begun(constructor.tree().getBody(), constructor.owner()) != Escape.NEVER;
        }

        @Override
        public Void visitMemberReference(MemberReferenceTree tree, Void nothing) {
            return isPutAway(tree) && Uses.isName(tree.getQualifierExpression(), "this") ? null
                : super.visitMemberReference(tree, nothing);
        }

        private boolean isSuper(MethodInvocationTree tree) {
            return tree.getMethodSelect() instanceof MemberSelectTree select
                && select.getExpression() instanceof IdentifierTree name && name.getName().contentEquals("super");
        }

        @Override
        public Void visitNewClass(NewClassTree tree, Void nothing) {
            JavaClass made = program.find(attribution.type(tree));
            if (tree.getClassBody() != null && attribution.element(tree.getClassBody()) != null) {
                made = program.find(attribution.element(tree.getClassBody()));
            }
            if (made != null && made.hasOuterObject() && tree.getEnclosingExpression() == null && isWithin(made)
                    && !(containers.apply(made) == self && Keepers.onlyKeeps(made)) && !(program.sure() && isStored(tree))
                    && !(isPutAway(tree) && keepsQuiet(made))) {
                leak(tree);
            }
            scan(tree.getEnclosingExpression(), null);
            scan(tree.getArguments(), null);
            return null;
        }

        /** Whether the making of an inner object does nothing with the one around it, nor lets its own object go. */
        private boolean keepsQuiet(JavaClass made) {
            return Keepers.onlyKeeps(made) && program.find(made.symbol().getSuperclass()) == null
                && made.methods().stream().noneMatch(each -> each.isConstructor() && from(each) != Escape.NEVER);
        }

        /** Whether a new object goes into a field or an element of one, where others find it as long as they know this object. */
        private boolean isStored(NewClassTree made) {
            Tree parent = attribution.parent(made);
            ExpressionTree target = parent instanceof AssignmentTree assignment ? assignment.getVariable() : null;
            while (target instanceof ArrayAccessTree element) {
                target = element.getExpression();
            }
            return target instanceof IdentifierTree && attribution.element(target).getKind() == ElementKind.FIELD
                && !attribution.element(target).getModifiers().contains(Modifier.STATIC);
        }

        /** Whether an object of a class knows this one: it stands within the class of this one, or in one above that. */
        private boolean isWithin(JavaClass made) {
            var types = attribution.types();
            for (JavaClass each = made.outer(); each != null; each = each.outer()) {
                if (types.isSubtype(types.erasure(self.symbol().asType()), types.erasure(each.symbol().asType()))) {
                    return true;
                }
            }
            return false;
        }

        @Override
        public Void visitLambdaExpression(LambdaExpressionTree tree, Void nothing) {
            if (isPutAway(tree)) {
                return null;
            } else if (!escape.isCalledAtOnce(tree) && mentionsSelf(tree)) {
                leak(tree);
                return null;
            }
            return super.visitLambdaExpression(tree, nothing);
        }

        private boolean mentionsSelf(LambdaExpressionTree tree) {
            boolean[] mentions = new boolean[1];
            new TreeScanner<Void, Void>() {
                @Override
                public Void visitIdentifier(IdentifierTree name, Void nothing) {
                    Element symbol = attribution.element(name);
                    boolean member = symbol != null && (symbol.getKind() == ElementKind.FIELD
                        || symbol.getKind() == ElementKind.METHOD) && !symbol.getModifiers().contains(Modifier.STATIC);
                    mentions[0] |= member || name.getName().contentEquals("this") || name.getName().contentEquals("super");
                    return null;
                }
            }.scan(tree.getBody(), null);
            return mentions[0];
        }

        @Override
        public Void visitClass(ClassTree tree, Void nothing) {
            return null;
        }
    }
}
