package atomic.java.translation;

import atomic.java.ownership.Uses;
import com.sun.source.tree.ExpressionTree;
import com.sun.source.tree.LambdaExpressionTree;
import com.sun.source.tree.MemberSelectTree;
import com.sun.source.tree.MethodInvocationTree;
import com.sun.source.tree.NewClassTree;
import com.sun.source.tree.Tree;
import java.util.HashMap;
import java.util.List;
import java.util.Map;
import java.util.Set;
import javax.lang.model.element.Element;
import javax.lang.model.element.ElementKind;
import javax.lang.model.element.ExecutableElement;
import javax.lang.model.element.VariableElement;

/**
 * Collections that never change once they are made, such as {@code List.copyOf(..)}: to look at one is no step. A field is
 * known to hold nothing else where all that it is given is made so, and an {@code AtomicReference} where all that any call
 * gives it is. Such a collection may be in a local, whose name doesn't matter then.
 */
final class Immutables {
    private static final String MADE = "java.util.ImmutableCollections";
    private static final String REFERENCE = "java.util.concurrent.atomic.AtomicReference";
    private static final Set<String> LOOKS = Set.of("get", "getPlain", "getAcquire", "getOpaque");
    private static final Set<String> SETS = Set.of("set", "lazySet", "setRelease", "setPlain", "setOpaque", "getAndSet");
    private static final Set<String> UPDATES = Set.of("updateAndGet", "getAndUpdate");
    private static final int DEEPEST = 4;

    private final Services services;
    private final Map<VariableElement, Boolean> references = new HashMap<>();
    private final Map<VariableElement, Boolean> given = new HashMap<>();

    Immutables(Services services) {
        this.services = services;
    }

    /** The field, or the local's, whose collection an expression gives, where it never changes; else null. */
    VariableElement of(ExpressionTree tree) {
        return of(tree, 0);
    }

    /** The field whose collection a local has, whatever it is given; else null. */
    VariableElement of(VariableElement local) {
        return local.getKind() == ElementKind.LOCAL_VARIABLE ? given(local, 0) : null;
    }

    private VariableElement of(ExpressionTree tree, int depth) {
        ExpressionTree bare = Uses.bare(tree);
        Element symbol = services.attribution().element(bare);
        if (bare instanceof MethodInvocationTree call && call.getMethodSelect() instanceof MemberSelectTree select) {
            VariableElement component = component(call);
            if (component != null) {
                return isGiven(component) ? component : null;
            }
            boolean looks = call.getArguments().isEmpty() && LOOKS.contains(select.getIdentifier().toString());
            return looks && services.attribution().element(Uses.bare(select.getExpression())) instanceof VariableElement field
                && isReference(field) ? field : null;
        }
        VariableElement variable = symbol instanceof VariableElement named && depth <= DEEPEST ? named : null;
        if (variable == null) {
            return null;
        } else if (variable.getKind() == ElementKind.LOCAL_VARIABLE) {
            return given(variable, depth);
        }
        return variable.getKind().isField() && services.program().find(variable.getEnclosingElement()) != null
            && !services.uses().isReflected(variable) && (MADE.equals(services.ownership().made(variable)) || isGiven(variable))
            ? variable : null;
    }

    /** The field that a call of a record's accessor gives, which nobody wrote; else null. */
    private VariableElement component(MethodInvocationTree call) {
        return services.attribution().element(call) instanceof ExecutableElement symbol && services.program().isAccessor(symbol)
            ? symbol.getEnclosingElement().getEnclosedElements().stream().filter(each -> each.getKind() == ElementKind.FIELD
                && each.getSimpleName().equals(symbol.getSimpleName())).map(VariableElement.class::cast).findFirst().orElse(null)
            : null;
    }

    /** Whether all makings of a field's class give it a collection that never changes. */
    boolean isGiven(VariableElement field) {
        Boolean known = given.get(field);
        if (known == null) {
            // What an object hands on to the next one is its own.
            given.put(field, true);
            List<ExpressionTree> all = services.program().library().hasContents(field.asType())
                ? services.ownership().brought().makings().given(field) : null;
            known = all != null && !all.isEmpty() && (all.stream().allMatch(each -> isMade(each, 0))
                || services.ownership().unchangedParts().is(field) && all.stream().allMatch(each -> isMade(each, 0)
                    || services.ownership().unchangedParts().isHandedOver(each)));
            if (!known) {
                given.values().removeIf(each -> each);
            }
            given.put(field, known);
        }
        return known;
    }

    /** Whether a field's collection may be changed, and is only told not to be: each is made for the object that is made of it. */
    boolean isLent(VariableElement field) {
        List<ExpressionTree> all = isGiven(field) ? services.ownership().brought().makings().given(field) : null;
        return all != null && !all.stream().allMatch(each -> isMade(each, 0));
    }

    /** A local that is only ever given what such references hold. */
    private VariableElement given(VariableElement local, int depth) {
        VariableElement found = null;
        for (Uses.Assignment each : services.uses().assignments(local)) {
            boolean looks = each.value() != null && Uses.bare(each.value()) instanceof MethodInvocationTree;
            found = looks ? of(each.value(), depth + 1) : null;
            if (found == null) {
                return null;
            }
        }
        return found;
    }

    private boolean isReference(VariableElement field) {
        Boolean known = references.get(field);
        if (known == null) {
            // What a function is given is what the reference has: that never changes, where all the rest doesn't.
            references.put(field, true);
            known = findReference(field);
            if (!known) {
                // What was found of others meanwhile may rest on this one.
                references.values().removeIf(each -> each);
            }
            references.put(field, known);
        }
        return known;
    }

    private boolean findReference(VariableElement field) {
        boolean plain = services.stable().isHidden(field) && services.fields().isSettled(field)
            && services.attribution().types().erasure(field.asType()).toString().equals(REFERENCE);
        return plain && services.uses().assignments(field).stream().allMatch(each -> each.value() != null
                && Uses.bare(each.value()) instanceof NewClassTree made && made.getClassBody() == null
                && made.getArguments().stream().allMatch(one -> isMade(one, 0)))
            && services.uses().of(field).stream().allMatch(this::keeps);
    }

    /** Whether a use of a reference puts nothing in that may change. */
    private boolean keeps(Tree use) {
        if (!(services.attribution().parent(use) instanceof MemberSelectTree select)
                || !(services.attribution().parent(select) instanceof MethodInvocationTree call)) {
            return services.uses().isTarget(use);
        }
        String name = select.getIdentifier().toString();
        List<? extends ExpressionTree> arguments = call.getArguments();
        return LOOKS.contains(name) || SETS.contains(name) && isMade(arguments.get(0), 0)
            || name.equals("compareAndSet") && isMade(arguments.get(1), 0)
            || UPDATES.contains(name) && Uses.bare(arguments.get(0)) instanceof LambdaExpressionTree function
                && function.getBody() instanceof ExpressionTree value && isMade(value, 0);
    }

    /** Whether an expression gives a collection that never changes, or null. */
    private boolean isMade(ExpressionTree tree, int depth) {
        String made = services.ownership().fresh(tree);
        Element symbol = services.attribution().element(Uses.bare(tree));
        boolean local = symbol instanceof VariableElement && symbol.getKind() == ElementKind.LOCAL_VARIABLE
            && depth <= DEEPEST && !services.uses().assignments(symbol).isEmpty()
            && services.uses().assignments(symbol).stream().allMatch(each ->
                each.value() != null && isMade(each.value(), depth + 1));
        return MADE.equals(made) || "null".equals(made) || local || of(tree) != null;
    }
}
