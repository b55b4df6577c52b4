package atomic.java.ownership;

import atomic.java.attribution.Attribution;
import atomic.java.program.Program;
import com.sun.source.tree.AssignmentTree;
import com.sun.source.tree.ExpressionTree;
import com.sun.source.tree.IdentifierTree;
import com.sun.source.tree.LambdaExpressionTree;
import com.sun.source.tree.MemberReferenceTree;
import com.sun.source.tree.MemberSelectTree;
import com.sun.source.tree.MethodInvocationTree;
import com.sun.source.tree.NewClassTree;
import com.sun.source.tree.ParenthesizedTree;
import com.sun.source.tree.Tree;
import com.sun.source.tree.VariableTree;
import com.sun.source.util.TreeScanner;
import java.util.ArrayList;
import java.util.HashMap;
import java.util.List;
import java.util.Map;
import java.util.Set;
import javax.lang.model.element.Element;
import javax.lang.model.element.ElementKind;
import javax.lang.model.element.ExecutableElement;
import javax.lang.model.element.Modifier;
import javax.lang.model.element.VariableElement;
import javax.lang.model.type.TypeMirror;

/**
 * Comparators whose functions are at hand. One that a field's own collection is made with runs where that collection is used,
 * and holds what is held there; so does one in a hidden final field, which is only given to such a collection, or to a call
 * that uses it at once. Their functions are written there, and not judged by themselves.
 */
public final class Comparators {
    private static final String COMPARATOR = "java.util.Comparator";
    private static final Set<String> MAKERS = Set.of(COMPARATOR, "java.util.Map.Entry", "java.util.Collections");
    private static final Set<String> ORDERED = Set.of("java.util.PriorityQueue", "java.util.TreeMap",
        "java.util.TreeSet");

    /** Collections that take elements from another one, and no comparator. */
    private static final Set<String> PLAIN = Set.of("java.util.ArrayList", "java.util.LinkedList", "java.util.ArrayDeque",
        "java.util.HashSet", "java.util.LinkedHashSet", "java.util.HashMap", "java.util.LinkedHashMap");

    private final Attribution attribution;
    private final Ownership ownership;
    private final Map<VariableElement, Boolean> tame = new HashMap<>();
    private final Map<VariableElement, Boolean> followed = new HashMap<>();

    Comparators(Program program, Ownership ownership) {
        this.ownership = ownership;
        attribution = program.attribution();
    }

    /** The functions that a field's own collection calls to compare its elements. */
    public List<ExpressionTree> of(VariableElement field) {
        List<ExpressionTree> all = new ArrayList<>();
        for (Uses.Assignment each : isTame(field) ? ownership.uses().assignments(field) : List.<Uses.Assignment>of()) {
            if (Uses.bare(each.value()) instanceof NewClassTree made) {
                made.getArguments().stream().filter(this::isComparator).forEach(argument -> collect(argument, all));
            }
        }
        return all;
    }

    /** The functions of hidden fields that a comparator is made of; those in it are called where it is made. */
    public List<ExpressionTree> named(ExpressionTree comparator) {
        List<ExpressionTree> all = new ArrayList<>();
        if (comparator != null && isComparator(comparator)) {
            collect(comparator, all);
            all.removeIf(each -> !(top(each) instanceof VariableTree));
        }
        return all;
    }

    /** Whether a comparator that a field's own collection is made with is followed, with all its functions. */
    public boolean isAtHand(ExpressionTree comparator) {
        return attribution.parent(comparator) instanceof NewClassTree made && isMaking(made) && isMade(comparator);
    }

    /** Whether a function is written where a comparator that has it is used, and nowhere else. */
    public boolean isFollowed(Tree function) {
        Tree top = top(function);
        return top instanceof VariableTree variable ? attribution.element(variable) instanceof VariableElement field
            && isFollowed(field) : top instanceof NewClassTree made && isMaking(made);
    }

    /** Whether all that is done with a field's comparator is known: a hidden final one that known calls are given. */
    public boolean isFollowed(VariableElement field) {
        Boolean known = followed.get(field);
        if (known == null) {
            followed.put(field, false);
            known = find(field);
            followed.put(field, known);
        }
        return known;
    }

    private boolean find(VariableElement field) {
        VariableTree declaration = ownership.uses().declaration(field);
        boolean hidden = field.getKind() == ElementKind.FIELD && field.getModifiers().contains(Modifier.PRIVATE)
            && field.getModifiers().contains(Modifier.FINAL) && !ownership.uses().isReflected(field);
        return hidden && declaration != null && declaration.getInitializer() != null && isErased(field.asType(), COMPARATOR)
            && isMade(declaration.getInitializer()) && ownership.uses().of(field).stream().allMatch(this::isUsed);
    }

    /** Whether a use of a comparator, or of one that is made of it, compares at once, or makes a field's own collection. */
    private boolean isUsed(Tree use) {
        Tree each = outermost(use);
        Tree parent = attribution.parent(each);
        if (parent instanceof MemberSelectTree select && select.getExpression() == each) {
            return select.getIdentifier().contentEquals("compare");
        }
        return parent instanceof NewClassTree made ? isMaking(made) : ownership.escape().isCalledAtOnce(each)
            && attribution.element(parent) instanceof ExecutableElement symbol && !givesFunction(symbol.getReturnType());
    }

    /** Whether what a call gives may be a function that uses the comparator later. */
    private boolean givesFunction(TypeMirror type) {
        String name = attribution.types().erasure(type).toString();
        return name.startsWith("java.util.function.") || name.equals("java.util.stream.Collector") || name.equals(COMPARATOR);
    }

    /** Whether a comparator consists of functions at hand. */
    private boolean isMade(ExpressionTree tree) {
        ExpressionTree bare = Uses.bare(tree);
        if (bare instanceof LambdaExpressionTree || bare instanceof MemberReferenceTree) {
            return !mentionsSelf(bare);
        } else if (bare instanceof MethodInvocationTree call && isMaker(call)) {
            ExpressionTree before = before(call);
            return (before == null || isMade(before))
                && call.getArguments().stream().allMatch(each -> !isFunction(each) || isMade(each));
        }
        return attribution.element(bare) instanceof VariableElement field && field.getKind() == ElementKind.FIELD
            && isFollowed(field);
    }

    /** The innermost tree around a comparator that isn't one that is made of it. */
    private Tree outermost(Tree tree) {
        Tree each = tree;
        while (true) {
            Tree parent = attribution.parent(each);
            Tree around = parent instanceof ParenthesizedTree ? parent
                : parent instanceof MethodInvocationTree call && isMaker(call) ? call
                : parent instanceof MemberSelectTree select && select.getExpression() == each
                    && attribution.parent(select) instanceof MethodInvocationTree call && isMaker(call) ? call : null;
            if (around == null) {
                return each;
            }
            each = around;
        }
    }

    private Tree top(Tree function) {
        return attribution.parent(outermost(function));
    }

    /** Whether a call makes a comparator, of others or of functions, and does nothing else. */
    private boolean isMaker(MethodInvocationTree call) {
        return attribution.element(call) instanceof ExecutableElement symbol
            && MAKERS.contains(symbol.getEnclosingElement().toString()) && isErased(symbol.getReturnType(), COMPARATOR);
    }

    /** The comparator that a call makes another one of, or null. */
    private ExpressionTree before(MethodInvocationTree call) {
        return call.getMethodSelect() instanceof MemberSelectTree select
            && !attribution.element(call).getModifiers().contains(Modifier.STATIC) ? select.getExpression() : null;
    }

    private boolean isComparator(ExpressionTree tree) {
        TypeMirror type = attribution.type(tree);
        return type != null && isErased(type, COMPARATOR);
    }

    private boolean isFunction(ExpressionTree tree) {
        return isComparator(tree) || attribution.type(tree) != null
            && attribution.type(tree).toString().startsWith("java.util.function.");
    }

    private boolean isErased(TypeMirror type, String name) {
        return attribution.types().erasure(type).toString().equals(name);
    }

    /** The functions at hand that a comparator is made of. */
    private void collect(ExpressionTree tree, List<ExpressionTree> all) {
        ExpressionTree bare = Uses.bare(tree);
        if (bare instanceof LambdaExpressionTree || bare instanceof MemberReferenceTree) {
            all.add(bare);
        } else if (bare instanceof MethodInvocationTree call && isMaker(call)) {
            if (before(call) != null) {
                collect(before(call), all);
            }
            call.getArguments().forEach(each -> collect(each, all));
        } else if (attribution.element(bare) instanceof VariableElement field && field.getKind() == ElementKind.FIELD
                && isFollowed(field)) {
            collect(ownership.uses().declaration(field).getInitializer(), all);
        }
    }

    /** Whether this makes the collection of a field that keeps it to itself. */
    private boolean isMaking(NewClassTree made) {
        Tree parent = attribution.parent(made);
        Element target = parent instanceof VariableTree variable ? attribution.element(variable)
            : parent instanceof AssignmentTree assignment ? attribution.element(Uses.bare(assignment.getVariable())) : null;
        return target instanceof VariableElement field && field.getKind() == ElementKind.FIELD && isTame(field);
    }

    /** Whether a field has ordered collections of its own, and neither gives away their comparators nor copies them. */
    private boolean isTame(VariableElement field) {
        return tame.computeIfAbsent(field, key -> !ownership.uses().assignments(key).isEmpty() && ownership.owns(key)
            && ownership.uses().assignments(key).stream().allMatch(each -> each.value() != null
                && (Uses.bare(each.value()).getKind() == Tree.Kind.NULL_LITERAL || isOrdered(Uses.bare(each.value()))))
            && ownership.uses().of(key).stream().noneMatch(this::isCopied));
    }

    private boolean isOrdered(ExpressionTree value) {
        return value instanceof NewClassTree made && made.getClassBody() == null
            && ORDERED.contains(attribution.types().erasure(attribution.type(made)).toString())
            && made.getArguments().stream().allMatch(each -> !isComparator(each) || !mentionsSelf(each));
    }

    private boolean isCopied(Tree use) {
        return attribution.parent(use) instanceof NewClassTree made
                && !PLAIN.contains(attribution.types().erasure(attribution.type(made)).toString())
            || attribution.parent(use) instanceof MemberSelectTree select
                && List.of("clone", "comparator").contains(select.getIdentifier().toString());
    }

    /** Whether a function names its object by {@code this}, which is another one where it is written. */
    private boolean mentionsSelf(Tree function) {
        boolean[] found = new boolean[1];
        new TreeScanner<Void, Void>() {
            @Override
            public Void visitIdentifier(IdentifierTree tree, Void nothing) {
                found[0] |= tree.getName().contentEquals("this") || tree.getName().contentEquals("super");
                return null;
            }
        }.scan(function, null);
        return found[0];
    }
}
