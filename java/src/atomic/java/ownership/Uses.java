package atomic.java.ownership;

import atomic.java.attribution.Attribution;
import com.sun.source.tree.ArrayAccessTree;
import com.sun.source.tree.AssignmentTree;
import com.sun.source.tree.ClassTree;
import com.sun.source.tree.CompilationUnitTree;
import com.sun.source.tree.CompoundAssignmentTree;
import com.sun.source.tree.EnhancedForLoopTree;
import com.sun.source.tree.ExpressionTree;
import com.sun.source.tree.IdentifierTree;
import com.sun.source.tree.LiteralTree;
import com.sun.source.tree.MemberSelectTree;
import com.sun.source.tree.MethodInvocationTree;
import com.sun.source.tree.ParenthesizedTree;
import com.sun.source.tree.Tree;
import com.sun.source.tree.UnaryTree;
import com.sun.source.tree.VariableTree;
import com.sun.source.util.TreeScanner;
import java.util.ArrayList;
import java.util.Collections;
import java.util.HashMap;
import java.util.HashSet;
import java.util.List;
import java.util.Map;
import java.util.Set;
import javax.lang.model.element.Element;
import javax.lang.model.element.ElementKind;
import javax.lang.model.element.Modifier;
import javax.lang.model.element.VariableElement;

/** Where each variable is declared, used and assigned, in all sources. */
public final class Uses {

    /** Methods that give a way to a field by its name, other than the field itself. */
    private static final Set<String> HANDLES = Set.of("findVarHandle", "findStaticVarHandle", "findSetter",
        "findStaticSetter", "newUpdater", "getDeclaredField", "getField", "objectFieldOffset", "staticFieldOffset");

    /** Calls of a lock with stamps, which are asked for by the statements around them. */
    private static final Set<String> STAMPED = Set.of("tryOptimisticRead", "validate");

    /** An assignment; {@code value} is null where the new value is computed from the old one. */
    public record Assignment(Tree tree, Tree target, ExpressionTree value) { }

    private final Map<Element, VariableTree> declared = new HashMap<>();
    private final Map<Element, List<Tree>> uses = new HashMap<>();
    private final Map<Element, List<Assignment>> assigned = new HashMap<>();
    private final List<MethodInvocationTree> clones = new ArrayList<>();
    private final Map<String, Set<Element>> reflected = new HashMap<>();
    private final Map<String, Set<Tree>> around = new HashMap<>();
    private final Set<Element> reflectedByAnyName = new HashSet<>();
    private final Attribution attribution;

    /** Looks through all sources. */
    public Uses(Attribution attribution) {
        this.attribution = attribution;
        for (CompilationUnitTree unit : attribution.units()) {
            new Scanner().scan(unit, null);
        }
    }

    private final class Scanner extends TreeScanner<Void, Void> {

        @Override
        public Void visitVariable(VariableTree tree, Void nothing) {
            Element symbol = attribution.element(tree);
            if (symbol != null) {
                declared.put(symbol, tree);
                if (tree.getInitializer() != null) {
                    assign(symbol, new Assignment(tree, tree, tree.getInitializer()));
                }
            }
            return super.visitVariable(tree, nothing);
        }

        @Override
        public Void visitIdentifier(IdentifierTree tree, Void nothing) {
            use(tree);
            return null;
        }

        @Override
        public Void visitMemberSelect(MemberSelectTree tree, Void nothing) {
            use(tree);
            return super.visitMemberSelect(tree, nothing);
        }

        private void use(Tree tree) {
            if (attribution.element(tree) instanceof VariableElement symbol) {
                uses.computeIfAbsent(symbol, key -> new ArrayList<>()).add(tree);
            }
        }

        @Override
        public Void visitAssignment(AssignmentTree tree, Void nothing) {
            assign(tree, tree.getVariable(), tree.getExpression());
            return super.visitAssignment(tree, nothing);
        }

        @Override
        public Void visitCompoundAssignment(CompoundAssignmentTree tree, Void nothing) {
            assign(tree, tree.getVariable(), null);
            return super.visitCompoundAssignment(tree, nothing);
        }

        @Override
        public Void visitUnary(UnaryTree tree, Void nothing) {
            switch (tree.getKind()) {
                case PREFIX_INCREMENT, PREFIX_DECREMENT, POSTFIX_INCREMENT, POSTFIX_DECREMENT ->
                    assign(tree, tree.getExpression(), null);
                default -> { }
            }
            return super.visitUnary(tree, nothing);
        }

        @Override
        public Void visitMethodInvocation(MethodInvocationTree tree, Void nothing) {
            Element symbol = attribution.element(tree);
            if (symbol != null && HANDLES.contains(symbol.getSimpleName().toString())) {
                reflect(tree);
            } else if (symbol != null && symbol.getSimpleName().contentEquals("clone")) {
                clones.add(tree);
            }
            if (tree.getMethodSelect() instanceof MemberSelectTree select
                    && STAMPED.contains(select.getIdentifier().toString())) {
                Set<Tree> all = around.computeIfAbsent(select.getIdentifier().toString(), key -> new HashSet<>());
                for (Tree each = tree; each != null && all.add(each);) {
                    each = attribution.parent(each);
                }
            }
            return super.visitMethodInvocation(tree, nothing);
        }

        /** The fields that a call names by texts, in the classes that it names; without any class, of all classes. */
        private void reflect(MethodInvocationTree tree) {
            List<ExpressionTree> parts = new ArrayList<>(tree.getArguments());
            if (tree.getMethodSelect() instanceof MemberSelectTree select) {
                parts.add(select.getExpression());
            }
            Set<Element> classes = new HashSet<>();
            for (ExpressionTree part : parts) {
                Element named = part instanceof MemberSelectTree select && select.getIdentifier().contentEquals("class")
                    ? attribution.element(select.getExpression()) : null;
                if (named != null) {
                    classes.add(named);
                }
            }
            if (tree.getArguments().stream().anyMatch(this::isComputedText)) {
                reflectedByAnyName.addAll(classes);
            }
            for (ExpressionTree part : parts) {
                if (constant(part) instanceof String name) {
                    Set<Element> known = reflected.computeIfAbsent(name, key -> new HashSet<>());
                    known.addAll(classes.isEmpty() ? Collections.singleton((Element) null) : classes);
                }
            }
        }

        /** Whether a text is computed, so that it may be any name. */
        private boolean isComputedText(ExpressionTree part) {
            return constant(part) == null && String.valueOf(attribution.type(part)).equals("java.lang.String");
        }

        private Object constant(ExpressionTree part) {
            return part instanceof LiteralTree literal ? literal.getValue()
                : attribution.element(bare(part)) instanceof VariableElement named ? named.getConstantValue() : null;
        }

        private void assign(Tree tree, ExpressionTree target, ExpressionTree value) {
            ExpressionTree bare = bare(target);
            Element symbol = attribution.element(bare);
            if (symbol instanceof VariableElement) {
                assign(symbol, new Assignment(tree, bare, value));
            }
        }

        private void assign(Element symbol, Assignment assignment) {
            assigned.computeIfAbsent(symbol, key -> new ArrayList<>()).add(assignment);
        }
    }

    /** An expression without the parentheses around it. */
    public static ExpressionTree bare(ExpressionTree tree) {
        ExpressionTree each = tree;
        while (each instanceof ParenthesizedTree parentheses) {
            each = parentheses.getExpression();
        }
        return each;
    }

    /** Whether a tree is a mere name, such as {@code this}. */
    public static boolean isName(Tree tree, String name) {
        return tree instanceof IdentifierTree identifier && identifier.getName().contentEquals(name);
    }

    /** Whether a call with such a name, one of a lock with stamps, stands in a tree. */
    public boolean hasStamped(Tree tree, String name) {
        return around.getOrDefault(name, Set.of()).contains(tree);
    }

    /** All calls of a {@code clone}. */
    public List<MethodInvocationTree> clones() {
        return clones;
    }

    /** Whether some code reaches a field by its name in a text, so that not all of its accesses are seen. */
    public boolean isReflected(VariableElement field) {
        Set<Element> classes = reflected.getOrDefault(field.getSimpleName().toString(), Set.of());
        return reflectedByAnyName.contains(field.getEnclosingElement()) || !classes.isEmpty() && (classes.contains(null) || classes.contains(field.getEnclosingElement()));
    }

    /** Whether an expression is {@code this}, or an assignment of it. */
    boolean isThis(Tree tree) {
        ExpressionTree bare = tree instanceof ExpressionTree expression ? bare(expression) : null;
        return isName(bare, "this")
            || bare instanceof AssignmentTree assignment && isThis(assignment.getExpression());
    }

    /** Whether a field may lead from an object to that object itself, which is then known by this name too. */
    boolean mayHoldItself(Element field) {
        return field != null && field.getKind() == ElementKind.FIELD && assignments(field).stream().anyMatch(each ->
            each.value() != null && isThis(each.value()));
    }

    /** Whether a name stands for what is assigned. */
    public boolean isTarget(Tree name) {
        return attribution.parent(name) instanceof AssignmentTree assignment && assignment.getVariable() == name;
    }

    public VariableTree declaration(Element variable) {
        return declared.get(variable);
    }

    public List<Tree> of(Element variable) {
        return uses.getOrDefault(variable, List.of());
    }

    public List<Assignment> assignments(Element variable) {
        return assigned.getOrDefault(variable, List.of());
    }

    /** Whether a local or parameter keeps the value that it gets first. */
    public boolean isSettled(VariableElement variable) {
        if (variable.getModifiers().contains(Modifier.FINAL)) {
            return true;
        }
        VariableTree tree = declared.get(variable);
        List<Assignment> all = assignments(variable);
        if (tree == null) {
            return false;
        }
        boolean begins = tree.getInitializer() != null || variable.getKind() != ElementKind.LOCAL_VARIABLE
            || attribution.parent(tree) instanceof EnhancedForLoopTree;
        if (begins) {
            return all.stream().allMatch(each -> each.tree() == tree);
        }
        return all.size() == 1 && all.get(0).value() != null && !isRepeated(all.get(0).tree(), tree);
    }

    /** Whether a loop stands around {@code tree} and not around {@code declaration}. */
    public boolean isRepeated(Tree tree, Tree declaration) {
        return outermostLoop(tree, declaration) != null;
    }

    /** The outermost loop around {@code tree} within the scope of {@code declaration}, or null. */
    public Tree outermostLoop(Tree tree, Tree declaration) {
        Tree scope = declaration == null ? null : attribution.parent(declaration);
        Tree loop = null;
        for (Tree each = attribution.parent(tree); each != null && each != scope
                && !(scope == null && each instanceof ClassTree);
                each = attribution.parent(each)) {
            switch (each.getKind()) {
                case WHILE_LOOP, DO_WHILE_LOOP, FOR_LOOP, ENHANCED_FOR_LOOP -> loop = each;
                default -> { }
            }
        }
        return loop;
    }

    /** Whether a method does more with a parameter than to keep it. */
    public boolean isAsked(VariableElement parameter) {
        return of(parameter).stream().map(attribution::parent).anyMatch(each -> each instanceof MemberSelectTree
            || each instanceof ArrayAccessTree || each instanceof EnhancedForLoopTree || each instanceof MethodInvocationTree);
    }
}
