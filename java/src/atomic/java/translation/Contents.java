package atomic.java.translation;

import atomic.java.ownership.Uses;
import atomic.java.places.Notes;
import atomic.java.skeleton.Method;
import atomic.java.skeleton.Part;
import atomic.java.skeleton.Path;
import atomic.java.skeleton.Value;
import com.sun.source.tree.ArrayAccessTree;
import com.sun.source.tree.ExpressionTree;
import com.sun.source.tree.MemberSelectTree;
import com.sun.source.tree.MethodInvocationTree;
import com.sun.source.tree.NewClassTree;
import com.sun.source.tree.Tree;
import java.util.ArrayList;
import java.util.List;
import javax.lang.model.element.Element;
import javax.lang.model.element.Modifier;
import javax.lang.model.element.VariableElement;
import javax.lang.model.type.TypeKind;

/** Accesses of the contents of arrays, collections and other objects that aren't safe by themselves. */
final class Contents {
    private static final String ARRAY = "array of others: other threads may know this array, so each access of an"
        + " element is a step";

    private final Services services;
    private final Body body;

    Contents(Services services, Body body) {
        this.services = services;
        this.body = body;
    }

    /** An element of an array. Of an array that others may know it is a step. */
    void element(Value array, boolean write, ArrayAccessTree at) {
        if (!known(array, write, at, at.getExpression().toString())) {
            exits(at.getExpression(), write);
            change(at.getExpression(), write);
            TypeKind kind = services.attribution().type(at).getKind();
            body.emit(services.doubt(Method.Doubt.ANY, "an element", kind == TypeKind.LONG || kind == TypeKind.DOUBLE,
                body, at, ARRAY));
        }
    }

    /** The next element of an array that is walked over. */
    void elements(Value array, ExpressionTree at) {
        if (!known(array, false, at, at.toString())) {
            body.emit(services.doubt(Method.Doubt.ANY, "an element", false, body, at, ARRAY));
        }
    }

    /** A call that looks at an object's contents or changes them; of an object that others may know it is compound. */
    void call(Value object, boolean write, Tree at, String shown) {
        if (!known(object, write, at, shown)) {
            if (at instanceof MethodInvocationTree called && called.getMethodSelect() instanceof MemberSelectTree select) {
                exits(select.getExpression(), write);
                change(select.getExpression(), write);
            }
            boolean brought = new Touches(services).noteBrought(at, write);
            Method.Doubt doubt = shown.startsWith("Entry.") ? Method.Doubt.ANY : brought ? Method.Doubt.OPEN : doubt(object, at);
            body.emit(services.doubt(doubt, shown, true, body, at,
                "object of others: other threads may know the object of " + shown
                    + ", so the call counts as several steps"));
        }
    }

    /** A copy of an array looks at its elements one after the other. */
    void copy(Value array, Tree at, String shown) {
        call(array, false, at, shown);
        if (array instanceof Value.Owned && !services.program().sure()) {
            call(array, false, at, shown);
        }
    }

    private void change(ExpressionTree object, boolean write) {
        if (write) {
            services.liveContents().changes(object);
        }
    }

    /** Tells where the object that is changed here gets out of its field: who has it needs no lock to look at it. */
    private void exits(ExpressionTree named, boolean write) {
        if (write && services.attribution().element(Uses.bare(named)) instanceof VariableElement field
                && services.isFirstChange(field)) {
            services.ownership().exits(field).forEach(each -> services.hint(each, "object of others: what "
                + field.getSimpleName() + " holds gets out here, so that others may touch it without any lock"));
        }
    }

    /** An object that came from outside is anybody's; this one's own part in a library, or what is made here, isn't known. */
    private Method.Doubt doubt(Value object, Tree at) {
        boolean own = object.path() != null && object.path().isThis() || at instanceof MethodInvocationTree called
            && called.getMethodSelect() instanceof MemberSelectTree select
            && services.attribution().element(select.getExpression()) instanceof VariableElement field
            && services.ownership().isGivenHere(field);
        boolean array = at instanceof MethodInvocationTree call && (call.getArguments().stream().anyMatch(this::isArray)
            || call.getMethodSelect() instanceof MemberSelectTree select && isArray(select.getExpression()));
        return own || array || isGivenHere(at) ? Method.Doubt.ANY : Method.Doubt.OPEN;
    }

    /** A method of an object that others bring, and may have a class of their own, runs what they want. */
    Method.Doubt openness(Tree at) {
        boolean named = at instanceof MethodInvocationTree call && call.getMethodSelect() instanceof MemberSelectTree select
            && !select.getExpression().toString().equals("super");
        Element symbol = services.attribution().element(at);
        boolean fixed = symbol == null || symbol.getModifiers().contains(Modifier.STATIC)
            || symbol.getModifiers().contains(Modifier.FINAL)
            || symbol.getEnclosingElement().getModifiers().contains(Modifier.FINAL);
        return named && !fixed ? Method.Doubt.OPEN : Method.Doubt.ANY;
    }

    /** Whether a call is made on what a method of the sources gives, or is given that, which may be new. */
    private boolean isGivenHere(Tree at) {
        List<ExpressionTree> parts = new ArrayList<>();
        if (at instanceof MethodInvocationTree call) {
            parts.addAll(call.getArguments());
            if (call.getMethodSelect() instanceof MemberSelectTree select) {
                parts.add(select.getExpression());
            }
        } else if (at instanceof NewClassTree made) {
            parts.addAll(made.getArguments());
        }
        return parts.stream().map(this::begins).anyMatch(each -> each instanceof MethodInvocationTree
            && services.program().method(services.attribution().element(each)) != null);
    }

    /** What a chain of a library's calls begins with. */
    private ExpressionTree begins(ExpressionTree tree) {
        ExpressionTree each = Uses.bare(tree);
        while (each instanceof MethodInvocationTree call && call.getMethodSelect() instanceof MemberSelectTree select
                && services.program().method(services.attribution().element(call)) == null) {
            each = Uses.bare(select.getExpression());
        }
        return each;
    }

    private boolean isArray(ExpressionTree tree) {
        return services.attribution().type(tree) != null && services.attribution().type(tree).getKind() == TypeKind.ARRAY;
    }

    /** Whether it is known whose contents these are; then the access is written. */
    private boolean known(Value object, boolean write, Tree at, String shown) {
        if (object instanceof Value.Fresh) {
            return true;
        } else if (object instanceof Value.Owned owned) {
            boolean walks = services.cursors().leavesOut(services.fields().holder(owned.contents()), owned.contents(),
                at);
            if (!walks && !(owned.receiver() instanceof Value.Fresh)) {
                new Touches(services).note(at);
                body.emit(new Part.Access(owned.receiver(), owned.contents(), write, services.attribution().name(at)));
            }
            services.functions().compare(services.fields().comparing(owned.contents()), body, at);
            return true;
        } else if (isArgument(object) && !services.program().options().strict()) {
            services.tell(Notes.Kind.ASSUMED, body, at, "no other thread touches " + named(object, shown)
                + " during this call");
            return true;
        }
        return false;
    }

    private static String named(Value object, String shown) {
        return object.path() == null ? "the object of " + shown : object.path().root().name();
    }

    /** Whether an object came as an argument of this method. */
    static boolean isArgument(Value object) {
        return object instanceof Value.Given || object instanceof Value.Named named
            && named.path().root().kind() == Path.Kind.PARAMETER && named.path().fields().isEmpty();
    }
}
