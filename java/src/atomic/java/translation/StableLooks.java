package atomic.java.translation;

import atomic.java.library.Choice;
import atomic.java.ownership.Uses;
import com.sun.source.tree.AssignmentTree;
import com.sun.source.tree.BlockTree;
import com.sun.source.tree.EnhancedForLoopTree;
import com.sun.source.tree.ExpressionTree;
import com.sun.source.tree.IfTree;
import com.sun.source.tree.MemberSelectTree;
import com.sun.source.tree.MethodInvocationTree;
import com.sun.source.tree.MethodTree;
import com.sun.source.tree.SynchronizedTree;
import com.sun.source.tree.Tree;
import com.sun.source.tree.TryTree;
import com.sun.source.tree.VariableTree;
import com.sun.source.util.TreeScanner;
import java.util.List;
import java.util.Set;
import javax.lang.model.element.Element;
import javax.lang.model.element.ExecutableElement;
import javax.lang.model.element.Modifier;
import javax.lang.model.element.VariableElement;

/**
 * Looks that may tell the same at any later time: a look into a concurrent map out of which nothing is taken, and in which
 * nothing is put in another's place; and one at a field that is given an object once. What such a look has found stays so, and
 * it is as if it were done later. One that found nothing doesn't tell what comes: so each of them counts as a step, but where
 * it is asked at once (see {@link FoundLooks}), and where only what is certain counts.
 */
record StableLooks(Services services) {
    private static final Set<String> LOOKS = Set.of("get", "getOrDefault");
    private static final Set<String> TESTS = Set.of("isPresent", "isEmpty");
    private static final Set<String> ALL_LOOKS = Set.of("get", "getPlain", "getAcquire", "getOpaque", "intValue", "longValue",
        "getOrDefault", "containsKey", "contains", "isEmpty", "peek", "peekFirst", "peekLast", "size", "length");
    private static final Set<String> MAPS = Set.of("java.util.concurrent.ConcurrentHashMap",
        "java.util.concurrent.ConcurrentSkipListMap");
    private static final Set<String> ONLY_ADDING = Set.of("get", "getOrDefault", "containsKey", "putIfAbsent",
        "computeIfAbsent", "size", "isEmpty", "mappingCount", "forEach");
    private static final Set<String> ADDING = Set.of("get", "getOrDefault", "containsKey", "putIfAbsent", "computeIfAbsent",
        "size", "isEmpty", "mappingCount", "keySet", "values", "entrySet", "forEach");

    /** Whether a call is a look into a map that only grows. */
    boolean isStable(LibraryCalls.Called called) {
        return called.choice().kind() == Choice.Kind.STEP && called.at() instanceof MethodInvocationTree call
            && call.getMethodSelect() instanceof MemberSelectTree select && LOOKS.contains(select.getIdentifier().toString())
            && services.attribution().element(Uses.bare(select.getExpression())) instanceof VariableElement field
            && isHidden(field) && services.fields().isSettled(field)
            && (isMap(services.attribution().element(call)) && services.facts().of(field, "only grows", this::onlyGrows)
                || services.facts().of(field, "set once by attempts", this::isOnlySetOnce));
    }

    /** Whether a call is a look into a concurrent map of the class's own, with which nothing is done but to look and to add. */
    boolean isOnlyAddedTo(MethodInvocationTree look) {
        return look.getMethodSelect() instanceof MemberSelectTree select && select.getIdentifier().contentEquals("get")
            && services.attribution().element(Uses.bare(select.getExpression())) instanceof VariableElement field
            && isHidden(field) && services.fields().isSettled(field) && services.facts().of(field, "is only added to",
                key -> MAPS.contains(String.valueOf(services.ownership().made(key)))
                    && services.uses().of(key).stream().allMatch(this::onlyAdds));
    }

    /** Whether a class is one of the concurrent maps of the library. */
    static boolean isConcurrent(String made) {
        return MAPS.contains(String.valueOf(made));
    }

    /** Whether a call of such a name only looks into a map, or adds to it. */
    static boolean onlyAdds(String name) {
        return ONLY_ADDING.contains(name);
    }

    private boolean onlyAdds(Tree use) {
        if (!(services.attribution().parent(use) instanceof MemberSelectTree select)
                || !(services.attribution().parent(select) instanceof MethodInvocationTree call)) {
            return services.uses().isTarget(use);
        }
        String name = select.getIdentifier().toString();
        return ONLY_ADDING.contains(name) || (name.equals("values") || name.equals("keySet"))
            && services.attribution().parent(call) instanceof EnhancedForLoopTree loop && loop.getExpression() == call;
    }

    private boolean onlyGrows(VariableElement map) {
        return services.uses().of(map).stream().allMatch(this::adds);
    }

    private boolean isOnlySetOnce(VariableElement reference) {
        return services.uses().of(reference).stream().allMatch(this::setsOnce);
    }

    /** Whether a use of an {@code AtomicReference} sets nothing but what is still null. */
    private boolean setsOnce(Tree use) {
        return services.attribution().parent(use) instanceof MemberSelectTree select
            && services.attribution().parent(select) instanceof MethodInvocationTree call
            && (select.getIdentifier().contentEquals("get") || select.getIdentifier().contentEquals("compareAndSet")
                && call.getArguments().get(0).getKind() == Tree.Kind.NULL_LITERAL);
    }

    /** Whether a call looks at a hidden counter of several cells that only counts up: the sum was so at some moment. */
    boolean counts(LibraryCalls.Called called) {
        return counts(called, Set.of("increment", "add", "sum", "intValue", "longValue"));
    }

    /**
     * Whether a counter only counts up by one. Its sum is at least what it was when the call began, and at most what it is
     * when the call ends; and the counter had each number in between at some moment. So the call is one step, in that moment.
     */
    boolean countsByOne(LibraryCalls.Called called) {
        return counts(called, Set.of("increment", "sum", "intValue", "longValue"));
    }

    /** Whether the sum is one of a counter that was found somewhere, of which it isn't known how it counts. */
    boolean isFoundSum(LibraryCalls.Called called) {
        return called.at() instanceof MethodInvocationTree call && call.getMethodSelect() instanceof MemberSelectTree select
            && called.shown().equals("LongAdder.sum")
            && !(services.attribution().element(Uses.bare(select.getExpression())) instanceof VariableElement variable
                && variable.getKind().isField());
    }

    private boolean counts(LibraryCalls.Called called, Set<String> calls) {
        return called.at() instanceof MethodInvocationTree call && call.getMethodSelect() instanceof MemberSelectTree select
            && called.shown().startsWith("LongAdder.")
            && services.attribution().element(Uses.bare(select.getExpression())) instanceof VariableElement field
            && calls.contains(select.getIdentifier().toString()) && isHidden(field)
            && services.fields().isSettled(field)
            && "java.util.concurrent.atomic.LongAdder".equals(services.ownership().made(field))
            && services.facts().of(field, "only counts by " + calls.size(), key -> onlyDoes(key, calls));
    }

    private boolean onlyDoes(VariableElement counter, Set<String> calls) {
        return services.uses().of(counter).stream().allMatch(use -> services.uses().isTarget(use)
            || services.attribution().parent(use) instanceof MemberSelectTree each
            && services.attribution().parent(each) instanceof MethodInvocationTree
            && calls.contains(each.getIdentifier().toString()));
    }

    /** Whether a call only looks at an object in a hidden field which some other call changes while it holds a lock. */
    boolean isUnderLock(LibraryCalls.Called called) {
        return called.at() instanceof MethodInvocationTree call && call.getMethodSelect() instanceof MemberSelectTree select
            && ALL_LOOKS.contains(select.getIdentifier().toString())
            && services.attribution().element(Uses.bare(select.getExpression())) instanceof VariableElement field
            && isHidden(field) && services.fields().isSettled(field)
            && services.facts().of(field, "changed in a region", this::isChangedInRegion);
    }

    private boolean isChangedInRegion(VariableElement field) {
        return services.uses().of(field).stream().anyMatch(this::changesInRegion);
    }

    private boolean changesInRegion(Tree use) {
        return services.attribution().parent(use) instanceof MemberSelectTree select
            && services.attribution().parent(select) instanceof MethodInvocationTree
            && !ALL_LOOKS.contains(select.getIdentifier().toString()) && region(use) != null;
    }

    private static boolean isMap(Element method) {
        return method instanceof ExecutableElement symbol
            && symbol.getEnclosingElement().getSimpleName().toString().endsWith("Map");
    }

    /** Whether only the code at hand reaches a field. */
    boolean isHidden(VariableElement field) {
        return field.getKind().isField() && field.getModifiers().contains(Modifier.PRIVATE)
            && services.program().find(field.getEnclosingElement()) != null && !services.uses().isReflected(field);
    }

    /** Whether a use of a map takes nothing out: a {@code put} stands in a region that has looked for its key before. */
    private boolean adds(Tree use) {
        if (!(services.attribution().parent(use) instanceof MemberSelectTree select)
                || !(services.attribution().parent(select) instanceof MethodInvocationTree call)) {
            return services.uses().isTarget(use);
        }
        String name = select.getIdentifier().toString();
        return ADDING.contains(name) || name.equals("put") && looksBefore(call, select.getExpression().toString());
    }

    /** Whether the region of a {@code put} has looked for its key before. */
    boolean looksBefore(MethodInvocationTree put, String map) {
        Tree region = region(put);
        boolean[] found = new boolean[1];
        new TreeScanner<Void, Void>() {
            @Override
            public Void visitMethodInvocation(MethodInvocationTree call, Void nothing) {
                String name = call.getMethodSelect().toString();
                boolean before = services.attribution().start(call) < services.attribution().start(put);
                found[0] |= before && (name.equals(map + ".containsKey") || name.equals(map + ".get"));
                return super.visitMethodInvocation(call, nothing);
            }
        }.scan(region, null);
        return region != null && found[0];
    }

    /** The innermost region of a lock around a tree, or null. */
    Tree region(Tree tree) {
        Tree each = services.attribution().parent(tree);
        while (each != null && !(each instanceof MethodTree)) {
            boolean region = each instanceof SynchronizedTree
                || each instanceof TryTree tried && tried.getFinallyBlock() != null && unlocks(tried.getFinallyBlock());
            if (region) {
                return each;
            }
            each = services.attribution().parent(each);
        }
        boolean locks = each instanceof MethodTree method
            && method.getModifiers().getFlags().contains(Modifier.SYNCHRONIZED);
        return locks ? each : null;
    }

    private static boolean unlocks(BlockTree block) {
        return block.getStatements().stream().anyMatch(each -> each.toString().contains(".unlock"));
    }

    /** Whether a field is volatile and set in one place, in a region that looks first whether it is set. */
    boolean isSetOnce(VariableElement field) {
        return services.facts().of(field, "set once", this::findSetOnce);
    }

    private boolean findSetOnce(VariableElement field) {
        if (!isHidden(field) || !field.getModifiers().contains(Modifier.VOLATILE) || field.asType().getKind().isPrimitive()) {
            return false;
        }
        List<Uses.Assignment> all = services.uses().assignments(field).stream().filter(each ->
            !(each.tree() instanceof VariableTree) || each.value() != null && !isNull(each.value())).toList();
        return all.size() == 1 && all.get(0).value() != null && !isNull(all.get(0).value())
            && region(all.get(0).tree()) != null && isTested(all.get(0).tree());
    }

    private static boolean isNull(ExpressionTree value) {
        ExpressionTree bare = Uses.bare(value);
        return bare.getKind() == Tree.Kind.NULL_LITERAL
            || bare instanceof AssignmentTree assignment && isNull(assignment.getExpression());
    }

    /** Whether an assignment stands under a test, within the region. */
    private boolean isTested(Tree tree) {
        Tree region = region(tree);
        Tree each = tree;
        while (each != region && !(each instanceof IfTree)) {
            each = services.attribution().parent(each);
        }
        return each != region;
    }

    /** Whether this only asks whether a hidden field has a value, which from the first one on always has one. */
    boolean isTestOfFilled(VariableElement field, Tree at) {
        return services.attribution().parent(at) instanceof MemberSelectTree select
            && TESTS.contains(select.getIdentifier().toString()) && isHidden(field)
            && services.attribution().types().erasure(field.asType()).toString().startsWith("java.util.Optional")
            && services.facts().of(field, "never becomes empty", this::staysFilled);
    }

    private boolean staysFilled(VariableElement field) {
        return services.uses().assignments(field).stream().allMatch(each -> each.tree() instanceof VariableTree
            || each.value() != null && each.value().toString().matches("Optional\\w*\\.of\\(.*"));
    }
}
