package atomic.java.translation;

import atomic.java.ownership.Uses;
import atomic.java.program.JavaClass;
import atomic.java.program.JavaMethod;
import atomic.java.skeleton.Part;
import atomic.java.skeleton.Path;
import atomic.java.skeleton.Value;
import com.sun.source.tree.BlockTree;
import com.sun.source.tree.ExpressionStatementTree;
import com.sun.source.tree.ExpressionTree;
import com.sun.source.tree.IdentifierTree;
import com.sun.source.tree.MemberSelectTree;
import com.sun.source.tree.MethodInvocationTree;
import com.sun.source.tree.StatementTree;
import java.util.ArrayList;
import java.util.List;
import javax.lang.model.element.Element;
import javax.lang.model.element.Modifier;
import javax.lang.model.element.TypeElement;
import javax.lang.model.element.VariableElement;
import javax.lang.model.type.TypeMirror;

/** Which lock an expression means. */
final class Locking {

    /** A lock: its name, or null where it has none, and how it is taken. */
    record Lock(Path path, Part.Mode mode) { }

    private final Services services;
    private final Body body;

    Locking(Services services, Body body) {
        this.services = services;
        this.body = body;
    }

    /** The lock that an expression means; the expression's steps are emitted. */
    Lock lock(ExpressionTree written) {
        ExpressionTree tree = Uses.bare(written);
        if (tree instanceof MemberSelectTree select && select.getIdentifier().contentEquals("class")) {
            JavaClass known = services.program().find(services.attribution().type(select.getExpression()));
            return new Lock(known == null ? null : services.fields().classLock(known, body.statics()),
                Part.Mode.EXCLUSIVE);
        }
        Part.Mode mode = isShared(tree) ? Part.Mode.SHARED : Part.Mode.EXCLUSIVE;
        ExpressionTree stamped = new Stamps(this).lockOf(tree);
        Value value = new Expressions(services, body).value(stamped == null ? tree : stamped);
        return new Lock(value.path(), mode);
    }

    /** The monitor of an object. That of a lock or a condition is another lock than this, and has no name. */
    Lock monitor(ExpressionTree tree) {
        Lock lock = lock(tree);
        Path path = lock.path();
        boolean other = isLock(services.attribution().type(Uses.bare(tree))) || path != null && !path.fields().isEmpty()
            && path.fields().get(path.fields().size() - 1).isLock();
        return other ? new Lock(null, Part.Mode.EXCLUSIVE) : lock;
    }

    /** Whether objects of a type are locks with methods, or belong to such. */
    boolean isLock(TypeMirror type) {
        return services.fields().isLock(type);
    }

    /** The object that an expression gives, without its steps. */
    Value object(ExpressionTree tree) {
        Value[] found = new Value[1];
        body.collect(() -> found[0] = new Expressions(services, body).value(tree));
        return found[0];
    }

    private boolean isShared(ExpressionTree tree) {
        if (tree instanceof MethodInvocationTree call) {
            return call.getMethodSelect() instanceof MemberSelectTree select
                && select.getIdentifier().contentEquals("readLock");
        }
        Element symbol = services.attribution().element(tree);
        if (!(symbol instanceof VariableElement variable)) {
            return false;
        } else if (symbol.getKind().isField()) {
            return LockViews.isShared(variable, services.fields());
        }
        var assignments = services.uses().assignments(variable);
        return isA(tree, "java.util.concurrent.locks.Lock") && assignments.stream().anyMatch(each ->
            each.value() != null && isShared(Uses.bare(each.value())));
    }

    /** The lock that a statement takes, gives back or tries to take, where it does; null elsewhere. */
    ExpressionTree operand(StatementTree statement, String... names) {
        ExpressionTree stamped = new Stamps(this).operand(statement, List.of(names).contains("unlock"));
        return stamped != null ? stamped : statement instanceof ExpressionStatementTree expression ? operand(expression.getExpression(), names) : null;
    }

    /** The same of an expression. */
    ExpressionTree operand(ExpressionTree written, String... names) {
        if (Uses.bare(written) instanceof MethodInvocationTree call
                && call.getMethodSelect() instanceof MemberSelectTree select
                && List.of(names).contains(select.getIdentifier().toString())
                && isA(select.getExpression(), "java.util.concurrent.locks.Lock")) {
            return select.getExpression();
        }
        return null;
    }

    /** Whether code begins by giving back a lock that who calls it took: what that does meanwhile is his to know. */
    boolean givesBack(BlockTree block) {
        return !block.getStatements().isEmpty() && operand(block.getStatements().get(0), "unlock") != null;
    }

    /** The locks that a statement takes, or gives back: itself, or by a method of its own object that does nothing else. */
    List<ExpressionTree> operands(StatementTree statement, String... names) {
        ExpressionTree one = operand(statement, names);
        JavaMethod helper = one == null ? helper(statement) : null;
        if (helper == null) {
            return one == null ? List.of() : List.of(one);
        }
        List<ExpressionTree> all = new ArrayList<>();
        for (StatementTree each : helper.tree().getBody().getStatements()) {
            ExpressionTree lock = operand(each, names);
            if (lock == null || !isOwn(lock, helper.owner())) {
                return List.of();
            }
            all.add(lock);
        }
        services.methods().helper(helper.place());
        return all;
    }

    /** The method of its own object that a statement calls, where no other one may run in its place. */
    private JavaMethod helper(StatementTree statement) {
        if (!(statement instanceof ExpressionStatementTree expression)
                || !(expression.getExpression() instanceof MethodInvocationTree call)
                || !isOnOwnObject(call.getMethodSelect())) {
            return null;
        }
        JavaMethod method = services.program().method(services.attribution().element(call));
        boolean plain = method != null && !method.isStatic() && method.tree().getBody() != null
            && method.symbol().getParameters().isEmpty()
            && !method.symbol().getModifiers().contains(Modifier.SYNCHRONIZED);
        boolean fixed = plain && (method.isPrivate() || method.symbol().getModifiers().contains(Modifier.FINAL)
            || method.owner().symbol().getModifiers().contains(Modifier.FINAL)
            || !services.program().options().strict());
        boolean alone = fixed && services.program().overriding().of(method).stream().noneMatch(JavaMethod::isVirtual);
        return alone ? method : null;
    }

    /** Whether an expression means the same lock each time: of a class, or, if not {@code ofClass}, of this object. */
    boolean isFixed(ExpressionTree tree, boolean ofClass) {
        if (tree instanceof MemberSelectTree select && select.getIdentifier().contentEquals("class")) {
            return true;
        } else if (Uses.isName(tree, "this")) {
            return !ofClass;
        }
        return isOnOwnObject(tree) && services.attribution().element(tree) instanceof VariableElement field
            && field.getKind().isField() && services.program().find(field.getEnclosingElement()) != null
            && services.fields().isSettled(field) && (!ofClass || field.getModifiers().contains(Modifier.STATIC));
    }

    private static boolean isOnOwnObject(ExpressionTree tree) {
        return tree instanceof IdentifierTree
            || tree instanceof MemberSelectTree select && Uses.isName(select.getExpression(), "this");
    }

    /** Whether an expression names a field of this class, on its own object, that keeps its value. */
    private boolean isOwn(ExpressionTree tree, JavaClass home) {
        return isOnOwnObject(tree) && services.attribution().element(tree) instanceof VariableElement field
            && field.getEnclosingElement().equals(home.symbol()) && services.fields().isSettled(field);
    }

    /** Whether an expression's type is a library's type, or below it. */
    boolean isA(ExpressionTree tree, String name) {
        TypeMirror type = services.attribution().type(tree);
        TypeElement wanted = services.attribution().elements().getTypeElement(name);
        var types = services.attribution().types();
        return type != null && wanted != null && !type.getKind().isPrimitive()
            && types.isSubtype(types.erasure(type), types.erasure(wanted.asType()));
    }

    /** Whether two expressions mean the same lock: they are written alike, or their locks have one name. */
    boolean areSame(ExpressionTree one, ExpressionTree other) {
        Boolean stamps = new Stamps(this).areSame(one, other);
        if (stamps != null || one.toString().equals(other.toString())) {
            return stamps == null || stamps;
        }
        Lock[] locks = new Lock[2];
        body.collect(() -> locks[0] = lock(one));
        body.collect(() -> locks[1] = lock(other));
        return locks[0].path() != null && locks[0].equals(locks[1]);
    }
}
