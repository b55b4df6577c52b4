package atomic.java.translation;

import atomic.java.ownership.Uses;
import atomic.java.skeleton.Part;
import atomic.java.skeleton.Path;
import atomic.java.skeleton.Value;
import com.sun.source.tree.ExpressionTree;
import com.sun.source.tree.MethodInvocationTree;
import javax.lang.model.element.Element;
import javax.lang.model.element.ExecutableElement;
import javax.lang.model.element.VariableElement;

/** Calls that give a lock back and take it again: {@code wait} and {@code await}. */
final class Waits {
    private final Services services;
    private final Body body;

    Waits(Services services, Body body) {
        this.services = services;
        this.body = body;
    }

    /** Emits a wait where the call is one. */
    boolean isWait(MethodInvocationTree tree, ExecutableElement symbol, ExpressionTree before) {
        String name = symbol.getSimpleName().toString();
        boolean object = name.equals("wait") && symbol.getEnclosingElement().toString().equals("java.lang.Object");
        boolean condition = name.startsWith("await") && before != null
            && new Locking(services, body).isA(before, "java.util.concurrent.locks.Condition");
        if (!object && !condition) {
            return false;
        }
        Path lock = object ? lockOf(tree, before) : lockOfCondition(before);
        body.emit(new Part.Wait(lock, new WaitTurns(services).kept(tree), services.attribution().name(tree)));
        return true;
    }

    private Path lockOf(MethodInvocationTree tree, ExpressionTree before) {
        Value object = before == null ? body.me(services.attribution().start(tree))
            : new Locking(services, body).object(before);
        boolean other = before != null && services.fields().isLock(services.attribution().type(Uses.bare(before)));
        return object == null || other ? null : object.path();
    }

    /** A condition's lock: the one whose {@code newCondition} made it. */
    private Path lockOfCondition(ExpressionTree before) {
        Element symbol = services.attribution().element(Uses.bare(before));
        if (symbol instanceof VariableElement field && symbol.getKind().isField()
                && LockViews.source(field, services.fields()) != field) {
            return new Locking(services, body).object(before).path();
        }
        return null;
    }
}
