package atomic.java.ownership;

import atomic.java.attribution.Attribution;
import atomic.java.program.JavaClass;
import atomic.java.program.JavaMethod;
import atomic.java.program.Program;
import com.sun.source.tree.AssignmentTree;
import com.sun.source.tree.ClassTree;
import com.sun.source.tree.ExpressionTree;
import com.sun.source.tree.MemberSelectTree;
import com.sun.source.tree.MethodInvocationTree;
import com.sun.source.tree.Tree;
import com.sun.source.tree.TypeCastTree;
import com.sun.source.tree.VariableTree;
import java.util.ArrayList;
import java.util.HashMap;
import java.util.List;
import java.util.Map;
import javax.lang.model.element.Element;
import javax.lang.model.element.ElementKind;
import javax.lang.model.element.Modifier;
import javax.lang.model.element.VariableElement;

/**
 * What {@code super.clone()} gives: an object that nobody else knows yet, whose fields hold the same objects as those
 * of the first one. It counts as new where nothing but numbers and texts is read of it before it gets a value of its
 * own.
 */
final class Clones {

    private Clones() { }

    /** Whether a call makes a copy of an object of a class at hand, field by field. */
    static boolean isOwn(MethodInvocationTree call, Program program) {
        Attribution attribution = program.attribution();
        ExpressionTree select = call.getMethodSelect();
        if (!attribution.element(call).getSimpleName().contentEquals("clone") || !call.getArguments().isEmpty()) {
            return false;
        }
        return !(select instanceof MemberSelectTree member) || member.getExpression().toString().equals("super")
            || program.find(attribution.type(member.getExpression())) != null;
    }

    /** Whether such a copy goes into a local that is used in this way. */
    static boolean isCopy(MethodInvocationTree call, Program program, Uses uses) {
        Attribution attribution = program.attribution();
        Tree parent = attribution.parent(call);
        while (parent instanceof TypeCastTree || parent != null && parent.getKind() == Tree.Kind.PARENTHESIZED) {
            parent = attribution.parent(parent);
        }
        return parent instanceof VariableTree local && attribution.element(local) instanceof VariableElement copy
            && copy.getKind() == ElementKind.LOCAL_VARIABLE
            && uses.of(copy).stream().allMatch(use -> isHarmless(use, copy, attribution, uses));
    }

    private static boolean isHarmless(Tree use, VariableElement copy, Attribution attribution, Uses uses) {
        if (!(attribution.parent(use) instanceof MemberSelectTree select)) {
            Tree parent = attribution.parent(use);
            return parent instanceof TypeCastTree || parent.getKind() == Tree.Kind.RETURN;
        }
        Element member = attribution.element(select);
        boolean field = member instanceof VariableElement && member.getKind() == ElementKind.FIELD;
        boolean target = attribution.parent(select) instanceof AssignmentTree assignment
            && assignment.getVariable() == select;
        return field && (target || member.asType().getKind().isPrimitive()
            || member.asType().toString().equals("java.lang.String")
            || uses.assignments(member).stream().anyMatch(each -> isBefore(each, select, copy, attribution, uses)));
    }

    /** Whether an assignment surely gave the copy's field a value of its own before it is read. */
    private static boolean isBefore(Uses.Assignment each, Tree read, VariableElement copy, Attribution attribution,
            Uses uses) {
        Tree statement = attribution.parent(each.tree());
        return each.target() instanceof MemberSelectTree target
            && copy.equals(attribution.element(target.getExpression()))
            && attribution.end(each.tree()) <= attribution.start(read)
            && attribution.parent(statement) == attribution.parent(uses.declaration(copy));
    }

    /** Whether a method of one class only gives such a copy. */
    static boolean isMaker(JavaMethod method, Sites sites, Program program) {
        boolean fixed = method.isPrivate()
            || !method.isOpen() && method.symbol().getModifiers().contains(Modifier.FINAL);
        List<ExpressionTree> results = fixed && method.tree().getBody() != null ? sites.results(method) : List.of();
        return !results.isEmpty() && results.stream().allMatch(each -> bare(each) instanceof MethodInvocationTree call
            && isOwn(call, program) && program.method(program.attribution().element(call)) == null);
    }

    private static ExpressionTree bare(ExpressionTree tree) {
        ExpressionTree each = tree == null ? null : Uses.bare(tree);
        return each instanceof TypeCastTree cast ? bare(cast.getExpression()) : each;
    }

    /** The calls that make such copies, by the class that they stand in. */
    static Map<JavaClass, List<MethodInvocationTree>> byClass(Program program, Uses uses) {
        Map<JavaClass, List<MethodInvocationTree>> all = new HashMap<>();
        uses.clones().stream().filter(call -> isOwn(call, program)
            && program.method(program.attribution().element(call)) == null).forEach(call ->
                all.computeIfAbsent(around(call, program), key -> new ArrayList<>()).add(call));
        return all;
    }

    private static JavaClass around(Tree tree, Program program) {
        Tree at = tree;
        while (at != null && !(at instanceof ClassTree)) {
            at = program.attribution().parent(at);
        }
        return at == null ? null : program.find(program.attribution().element(at));
    }

    /** Whether two objects may share what a field holds, since one of these calls makes one a copy of the other. */
    static boolean share(VariableElement field, List<MethodInvocationTree> copying, Program program, Uses uses, Sites sites) {
        JavaClass home = program.find(field.getEnclosingElement());
        boolean plain = home.symbol().getSuperclass().toString().equals("java.lang.Object");
        boolean open = !plain && program.attribution().elements().getAllMembers(home.symbol()).stream().anyMatch(each ->
            each.getSimpleName().contentEquals("clone") && each.getModifiers().contains(Modifier.PUBLIC)
            && program.find(each.getEnclosingElement()) == null);
        return open || copying.stream().anyMatch(call ->
            copies(call, program, sites).stream().anyMatch(each -> !givesOwn(each, field, program, uses)));
    }

    /** The calls that give a copy to somebody: the call itself, or those of the method that only returns it. */
    private static List<? extends Tree> copies(MethodInvocationTree call, Program program, Sites sites) {
        Tree around = program.around(call);
        JavaMethod method = around == null ? null : program.method(program.attribution().element(around));
        return method != null && isMaker(method, sites, program) && !sites.isReferenced(method.symbol())
            ? sites.of(method.symbol()) : List.of(call);
    }

    /** Whether the copy's field surely gets a value of its own. */
    private static boolean givesOwn(Tree call, VariableElement field, Program program, Uses uses) {
        Attribution attribution = program.attribution();
        Tree parent = attribution.parent(call);
        while (parent instanceof TypeCastTree || parent.getKind() == Tree.Kind.PARENTHESIZED) {
            parent = attribution.parent(parent);
        }
        return parent instanceof VariableTree local && attribution.element(local) instanceof VariableElement copy
            && uses.assignments(field).stream().anyMatch(each -> each.target() instanceof MemberSelectTree target
                && copy.equals(attribution.element(target.getExpression()))
                && attribution.parent(attribution.parent(each.tree())) == attribution.parent(local));
    }
}
