package atomic.java.ownership;

import atomic.java.attribution.Attribution;
import atomic.java.program.JavaMethod;
import atomic.java.program.Program;
import com.sun.source.tree.ExpressionTree;
import com.sun.source.tree.NewClassTree;
import com.sun.source.tree.Tree;
import java.util.ArrayList;
import java.util.HashMap;
import java.util.List;
import java.util.Map;
import java.util.Set;
import java.util.function.Predicate;
import javax.lang.model.element.Element;
import javax.lang.model.element.ElementKind;
import javax.lang.model.element.ExecutableElement;
import javax.lang.model.element.VariableElement;
import javax.lang.model.type.ArrayType;
import javax.lang.model.type.DeclaredType;

/**
 * Collections and arrays that objects of a private class are made of, and that nobody changes from then on, such as the set in a
 * record that stands for a whole state: each is made for it, filled before, and only looked at behind it. Where a method that
 * is asked to be atomic gives one out, that method is refused, and the others are judged as if nobody changed it.
 */
public final class UnchangedParts {
    private final Program program;
    private final Attribution attribution;
    private final Ownership ownership;
    private final Predicate<JavaMethod> asked;
    private final Map<VariableElement, InnerWays> known = new HashMap<>();

    UnchangedParts(Program program, Ownership ownership, Predicate<JavaMethod> asked) {
        this.program = program;
        this.ownership = ownership;
        this.asked = asked;
        attribution = program.attribution();
    }

    /** Whether nobody changes what such a field holds, by any of its names. */
    public boolean is(VariableElement field) {
        if (program.options().strict() || !program.library().hasContents(field.asType())) {
            return false;
        }
        InnerWays ways = ways(field);
        return ways != null && !ways.isChanged() && !ways.found().isLost()
            && ways.outs().stream().allMatch(each -> InnerThings.isTold(each, program, ownership, asked));
    }

    /** Where what such a field holds gets out, so that others may change it: an array, or an object of a class that says how. */
    public Set<Tree> outs(VariableElement field) {
        boolean open = field.asType() instanceof ArrayType || field.asType() instanceof DeclaredType declared
            && declared.asElement().getKind() == ElementKind.CLASS;
        return open && is(field) ? ways(field).outs() : Set.of();
    }

    /** The method in which something gets out. */
    public JavaMethod home(Tree out) {
        return InnerThings.home(out, program);
    }

    private InnerWays ways(VariableElement field) {
        if (!known.containsKey(field)) {
            List<Tree> seeds = seeds(field);
            known.put(field, seeds == null ? null : new InnerWays(program, ownership, field.asType(), asked).within(field, seeds));
        }
        return known.get(field);
    }

    /** The names of a field, and the calls of its accessor; null where somebody may call that one by a name. */
    private List<Tree> seeds(VariableElement field) {
        List<Tree> seeds = new ArrayList<>(ownership.uses().of(field).stream().filter(each -> !ownership.uses().isTarget(each)).toList());
        for (Element each : field.getEnclosingElement().getEnclosedElements()) {
            if (each instanceof ExecutableElement accessor && program.isAccessor(accessor)
                    && each.getSimpleName().equals(field.getSimpleName())) {
                if (ownership.sites().isReferenced(accessor)) {
                    return null;
                }
                seeds.addAll(ownership.sites().of(accessor));
            }
        }
        return seeds;
    }

    /** Whether an object is made of a new collection or array, which its maker doesn't touch from then on. */
    public boolean isHandedOver(ExpressionTree given) {
        ExpressionTree bare = Uses.bare(given);
        Tree making = attribution.parent(given);
        if (!(attribution.element(bare) instanceof VariableElement local) || local.getKind() != ElementKind.LOCAL_VARIABLE) {
            String made = ownership.fresh(bare);
            return made != null && (made.equals("null") || Ownership.isNew(made));
        }
        return Ownership.isNew(ownership.made(local)) && making instanceof NewClassTree
            && ownership.escapes(local) >= attribution.start(making)
            && ownership.uses().outermostLoop(making, ownership.uses().declaration(local)) == null
            && ownership.uses().of(local).stream().allMatch(each -> attribution.start(each) <= attribution.start(bare));
    }
}
