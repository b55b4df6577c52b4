package atomic.java.translation;

import atomic.java.ownership.Uses;
import com.sun.source.tree.AssignmentTree;
import com.sun.source.tree.ExpressionTree;
import com.sun.source.tree.MemberSelectTree;
import com.sun.source.tree.MethodInvocationTree;
import com.sun.source.tree.NewClassTree;
import com.sun.source.tree.Tree;
import com.sun.source.tree.VariableTree;
import java.util.Set;
import javax.lang.model.element.Element;
import javax.lang.model.element.ElementKind;
import javax.lang.model.element.Modifier;
import javax.lang.model.element.VariableElement;

/**
 * Fields that hold a part of another field's lock: {@code rw.readLock()}, {@code lock.newCondition()}. A lock that only a local of the
 * constructor names is known by the field that keeps it, or else by the one that keeps its lock of writers.
 */
final class LockViews {
    private static final Set<String> PARTS = Set.of("readLock", "writeLock", "newCondition");

    private LockViews() { }

    /** The field whose lock this one's object belongs to; the field itself where there is no other. */
    static VariableElement source(VariableElement field, Fields fields) {
        MethodInvocationTree call = call(field, fields);
        if (call != null && call.getMethodSelect() instanceof MemberSelectTree select) {
            Element symbol = fields.guards().element(Uses.bare(select.getExpression()));
            if (symbol instanceof VariableElement source && symbol.getKind() == ElementKind.FIELD && source != field
                    && fields.isSettled(source)) {
                return source(source, fields);
            } else if (symbol instanceof VariableElement local && symbol.getKind() == ElementKind.LOCAL_VARIABLE
                    && isSetOnce(field, fields) && isOnlyKept(local, fields)) {
                return ofLocal(field, local, fields);
            }
        }
        return field;
    }

    /** A field of an object is set in one run of its constructor, where a local has one value. */
    private static boolean isSetOnce(VariableElement field, Fields fields) {
        return field.getModifiers().contains(Modifier.FINAL) && fields.uses().assignments(field).size() == 1;
    }

    /** Whether a local has a new lock, and this or its parts are only kept in fields. */
    private static boolean isOnlyKept(VariableElement local, Fields fields) {
        VariableTree declared = fields.uses().declaration(local);
        return declared != null && declared.getInitializer() != null && fields.uses().isSettled(local)
            && Uses.bare(declared.getInitializer()) instanceof NewClassTree made && made.getClassBody() == null
            && fields.uses().of(local).stream().allMatch(use -> keeper(use, fields) != null);
    }

    /** The field of the same object by which the lock of a local is known. */
    private static VariableElement ofLocal(VariableElement field, VariableElement local, Fields fields) {
        VariableElement found = field;
        boolean writes = false;
        for (Tree use : fields.uses().of(local)) {
            VariableElement keeper = keeper(use, fields);
            if (keeper.getEnclosingElement() != field.getEnclosingElement() || !isSetOnce(keeper, fields)) {
                continue;
            } else if (call(keeper, fields) == null) {
                return fields.isLock(keeper.asType()) ? keeper : field;
            } else if (!writes && name(call(keeper, fields)).equals("writeLock")) {
                found = keeper;
                writes = true;
            }
        }
        return found;
    }

    /** The field that is set to a local where that is used, or to a part of its lock; else null. */
    private static VariableElement keeper(Tree use, Fields fields) {
        Tree around = fields.guards().parent(use);
        Tree value = around instanceof MemberSelectTree select && isPart(select) ? fields.guards().parent(select) : use;
        Tree set = fields.guards().parent(value);
        Element target = set instanceof AssignmentTree assignment && assignment.getExpression() == value
            ? fields.guards().element(Uses.bare(assignment.getVariable())) : null;
        return target instanceof VariableElement field && target.getKind() == ElementKind.FIELD ? field : null;
    }

    /** Whether the field holds the lock of readers. */
    static boolean isShared(VariableElement field, Fields fields) {
        MethodInvocationTree call = call(field, fields);
        return call != null && name(call).equals("readLock");
    }

    /** The call that gives a part of a lock, where the field is only ever set to that. */
    private static MethodInvocationTree call(VariableElement field, Fields fields) {
        var assignments = fields.uses().assignments(field);
        if (field.getKind() != ElementKind.FIELD || assignments.size() != 1 || !fields.isSettled(field)) {
            return null;
        }
        ExpressionTree value = assignments.get(0).value();
        boolean part = value != null && Uses.bare(value) instanceof MethodInvocationTree call
            && call.getMethodSelect() instanceof MemberSelectTree select && isPart(select);
        return part ? (MethodInvocationTree) Uses.bare(value) : null;
    }

    private static boolean isPart(MemberSelectTree select) {
        return PARTS.contains(select.getIdentifier().toString());
    }

    private static String name(MethodInvocationTree call) {
        return call.getMethodSelect() instanceof MemberSelectTree select ? select.getIdentifier().toString() : "";
    }
}
