package atomic.java.translation;

import atomic.java.skeleton.Value;
import com.sun.source.tree.ExpressionTree;
import com.sun.source.tree.MethodInvocationTree;
import com.sun.source.tree.NewClassTree;
import javax.lang.model.element.ExecutableElement;
import javax.lang.model.type.TypeKind;

/**
 * Collections that are made with room for as many elements as a method tells: {@code new ArrayList<>(size())}. They hold the
 * same, however many these are, so that nobody can tell what came in between. The look counts as a step all the same, but where
 * only what is certain counts.
 */
record Capacities(Services services, Body body) {

    /** An object of a library's class. */
    Value construct(NewClassTree tree) {
        if (!isRoom(tree)) {
            return new LibraryCalls(services, body).construct(tree);
        }
        services.hint(tree.getArguments().get(0), "room for elements: a collection holds the same, whatever this look tells; it"
            + " counts as a step all the same");
        if (!services.program().sure()) {
            return new LibraryCalls(services, body).construct(tree);
        }
        Value[] made = new Value[1];
        body.collect(() -> made[0] = new LibraryCalls(services, body).construct(tree));
        return made[0];
    }

    private boolean isRoom(NewClassTree tree) {
        ExpressionTree room = tree.getArguments().size() == 1 ? tree.getArguments().get(0) : null;
        return room instanceof MethodInvocationTree call && call.getArguments().isEmpty()
            && services.attribution().element(tree) instanceof ExecutableElement symbol
            && symbol.getParameters().get(0).asType().getKind() == TypeKind.INT
            && services.attribution().elements().getPackageOf(symbol).getQualifiedName().contentEquals("java.util");
    }
}
