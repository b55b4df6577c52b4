package atomic.java.translation;

import atomic.java.ownership.Uses;
import atomic.java.program.Touch;
import com.sun.source.tree.ExpressionTree;
import com.sun.source.tree.MemberSelectTree;
import com.sun.source.tree.MethodInvocationTree;
import com.sun.source.tree.NewClassTree;
import com.sun.source.tree.Tree;
import com.sun.source.tree.VariableTree;
import java.util.List;
import java.util.Set;
import javax.lang.model.element.ElementKind;
import javax.lang.model.element.VariableElement;

/**
 * Fields that hold one version of a collection after another, of which each has all that the one before had:
 * {@code copy = new HashMap<>(all); if (!copy.containsKey(k)) copy.put(k, v); all = copy;} in one region. What was found in
 * one version is in the later ones too. So a change of such a field adds, as {@code putIfAbsent} does, and a
 * {@code all.get(k)} looks one thing up.
 */
record Versions(Services services) {
    private static final Set<String> FINDING = Set.of("get", "getOrDefault", "containsKey", "contains", "isEmpty");
    private static final Set<String> ADDING = Set.of("putIfAbsent", "computeIfAbsent", "add");
    private static final Set<String> LOOKING = Set.of("size");
    private static final Set<String> COPIES = Set.of("copyOf", "unmodifiableMap", "unmodifiableSet", "unmodifiableList",
        "unmodifiableCollection");

    /** Notes of a look at a field, or of a change, what it does, where each version has all of the last one. */
    void note(VariableElement field, boolean write, Tree at) {
        Tree parent = services.attribution().parent(at);
        boolean finds = !write && parent instanceof MemberSelectTree select && select.getExpression() == at
            && FINDING.contains(select.getIdentifier().toString())
            && services.attribution().parent(select) instanceof MethodInvocationTree;
        if ((write || finds) && services.facts().of(field, "grows", this::grows)) {
            String asked = finds ? ((MethodInvocationTree) services.attribution().parent(parent)).getArguments().toString()
                : "";
            services.program().touches().put(services.attribution().name(at),
                new Touch(field, write ? Touch.Kind.ADD : Touch.Kind.FIND, asked));
        }
    }

    private boolean grows(VariableElement field) {
        List<Uses.Assignment> all = services.uses().assignments(field);
        return services.stable().isHidden(field) && services.program().library().hasContents(field.asType())
            && all.stream().allMatch(each -> each.tree() instanceof VariableTree || isLarger(field, each));
    }

    /** Whether an assignment gives a field a copy of what it has, to which its region has only added. */
    private boolean isLarger(VariableElement field, Uses.Assignment assignment) {
        ExpressionTree value = assignment.value() == null ? null : Uses.bare(assignment.value());
        boolean copied = value instanceof MethodInvocationTree call && call.getArguments().size() == 1
            && call.getMethodSelect() instanceof MemberSelectTree select && COPIES.contains(select.getIdentifier().toString());
        ExpressionTree named = copied ? Uses.bare(((MethodInvocationTree) value).getArguments().get(0)) : value;
        Tree region = services.stable().region(assignment.tree());
        return named != null && services.attribution().element(named) instanceof VariableElement copy
            && copy.getKind() == ElementKind.LOCAL_VARIABLE && begins(copy, field) && region != null
            && region == services.stable().region(services.uses().declaration(copy))
            && services.uses().of(copy).stream().allMatch(each -> each == named || adds(each, copy, field));
    }

    /** Whether a local begins as a copy of what a field has, and stays this object. */
    private boolean begins(VariableElement copy, VariableElement field) {
        VariableTree declared = services.uses().declaration(copy);
        return declared != null && declared.getInitializer() instanceof NewClassTree made && made.getClassBody() == null
            && made.getArguments().size() == 1 && services.uses().isSettled(copy)
            && services.attribution().element(Uses.bare(made.getArguments().get(0))) == field;
    }

    /** Whether a use of the copy takes nothing out, and puts nothing in the place of something. */
    private boolean adds(Tree use, VariableElement copy, VariableElement field) {
        if (!(services.attribution().parent(use) instanceof MemberSelectTree select)
                || !(services.attribution().parent(select) instanceof MethodInvocationTree call)) {
            return false;
        }
        String name = select.getIdentifier().toString();
        return FINDING.contains(name) || LOOKING.contains(name) || ADDING.contains(name) || name.equals("put")
            && (services.stable().looksBefore(call, field.getSimpleName().toString())
                || services.stable().looksBefore(call, copy.getSimpleName().toString()));
    }
}
