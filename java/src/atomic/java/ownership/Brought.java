package atomic.java.ownership;

import atomic.java.attribution.Attribution;
import atomic.java.library.Choice;
import atomic.java.library.Library;
import atomic.java.program.JavaMethod;
import atomic.java.program.Program;
import com.sun.source.tree.ExpressionTree;
import com.sun.source.tree.IdentifierTree;
import com.sun.source.tree.MemberSelectTree;
import com.sun.source.tree.MethodInvocationTree;
import com.sun.source.tree.MethodTree;
import com.sun.source.tree.NewClassTree;
import com.sun.source.tree.Tree;
import com.sun.source.tree.TypeCastTree;
import java.util.HashMap;
import java.util.List;
import java.util.Map;
import java.util.stream.Collectors;
import javax.lang.model.element.Element;
import javax.lang.model.element.ElementKind;
import javax.lang.model.element.ExecutableElement;
import javax.lang.model.element.Modifier;
import javax.lang.model.element.VariableElement;
import javax.lang.model.type.DeclaredType;
import javax.lang.model.type.TypeMirror;
import javax.lang.model.type.WildcardType;

/**
 * Collections that code outside the sources brings: a field has what a constructor is given, and the constructor is called from
 * outside, or with what a method is given that is. Who brings one has it still, and may give the same one to another object here
 * too. So a method here that changes what it was brought may change what another one was brought, where the types allow it.
 */
public final class Brought {
    private static final int DEEPEST = 4;
    private static final String NONE = "";

    private final Program program;
    private final Attribution attribution;
    private final Uses uses;
    private final Sites sites;
    private final Map<VariableElement, String> known = new HashMap<>();

    Brought(Program program, Uses uses, Sites sites) {
        this.program = program;
        this.uses = uses;
        this.sites = sites;
        attribution = program.attribution();
    }

    /** What the objects of private classes are made of, which nobody outside brings. */
    public Makings makings() {
        return new Makings(program, uses, sites);
    }

    /**
     * What the collection in a field may be, where code outside brings it: its most general type that has contents, with a
     * question mark for each type that a caller chooses. Two fields may have the same collection where this is equal. Else null.
     */
    public String type(VariableElement field) {
        String found = known.get(field);
        if (found == null) {
            known.put(field, NONE);
            found = isBrought(field) ? general(field.asType()) : NONE;
            known.put(field, found);
        }
        return found.isEmpty() ? null : found;
    }

    private boolean isBrought(VariableElement field) {
        List<Uses.Assignment> all = uses.assignments(field);
        boolean stays = field.getModifiers().contains(Modifier.FINAL)
            || field.getModifiers().contains(Modifier.PRIVATE) && all.stream().allMatch(this::isOfNewObject);
        return field.getKind() == ElementKind.FIELD && stays && !uses.isReflected(field) && !all.isEmpty()
            && all.stream().allMatch(each -> each.value() != null && isBrought(each.value(), 0));
    }

    /** Whether an assignment sets a field of the object that a constructor makes, or that is read in. */
    private boolean isOfNewObject(Uses.Assignment assignment) {
        boolean own = assignment.target() instanceof IdentifierTree
            || assignment.target() instanceof MemberSelectTree select && uses.isThis(select.getExpression());
        JavaMethod method = program.around(assignment.tree()) instanceof MethodTree around
            ? program.method(attribution.element(around)) : null;
        return own && method != null && (method.isConstructor() || method.readsNewObject());
    }

    private boolean isBrought(ExpressionTree value, int depth) {
        ExpressionTree bare = Uses.bare(value);
        if (bare instanceof TypeCastTree cast) {
            return isBrought(cast.getExpression(), depth);
        } else if (bare instanceof MethodInvocationTree call) {
            ExpressionTree shown = shown(call);
            return shown != null && isBrought(shown, depth);
        }
        Element symbol = attribution.element(bare);
        if (symbol instanceof VariableElement field && field.getKind() == ElementKind.FIELD) {
            return type(field) != null;
        }
        return symbol instanceof VariableElement parameter && parameter.getKind() == ElementKind.PARAMETER && depth <= DEEPEST
            && uses.isSettled(parameter) && isGiven(parameter, program.method(parameter.getEnclosingElement()), depth);
    }

    /** What a call gives back, or shows the contents of: {@code requireNonNull(names)}, {@code map.keySet()}; else null. */
    private ExpressionTree shown(MethodInvocationTree call) {
        if (!(attribution.element(call) instanceof ExecutableElement symbol) || program.method(symbol) != null) {
            return null;
        } else if (symbol.getSimpleName().contentEquals("requireNonNull")) {
            return call.getArguments().get(0);
        }
        return call.getMethodSelect() instanceof MemberSelectTree select && !symbol.getModifiers().contains(Modifier.STATIC)
            && program.library().choose(attribution.type(select.getExpression()), Library.key(symbol)).kind() == Choice.Kind.VIEW
            ? select.getExpression() : null;
    }

    /** Whether some call gives a parameter what was brought: a call from outside, where none is at hand, or else one of these. */
    private boolean isGiven(VariableElement parameter, JavaMethod method, int depth) {
        if (method == null) {
            return false;
        }
        boolean open = !method.symbol().getModifiers().contains(Modifier.PRIVATE);
        List<Tree> calls = sites.of(method.symbol());
        int at = method.symbol().getParameters().indexOf(parameter);
        return calls.isEmpty() || !method.isConstructor() ? open && !method.symbol().isVarArgs()
            : calls.stream().map(Brought::arguments).anyMatch(each -> at < each.size() && isBrought(each.get(at), depth + 1));
    }

    private static List<? extends ExpressionTree> arguments(Tree call) {
        return call instanceof NewClassTree made ? made.getArguments() : ((MethodInvocationTree) call).getArguments();
    }

    /** The type itself, or of an interface the first one above it that has contents: a sorted set may be any collection. */
    private String general(TypeMirror type) {
        TypeMirror each = type;
        TypeMirror next = each;
        while (next != null && program.library().hasContents(next)) {
            each = next;
            next = isInterface(each) ? attribution.types().directSupertypes(each).stream().filter(Brought::isInterface)
                .findFirst().orElse(null) : null;
        }
        return program.library().hasContents(each) && each instanceof DeclaredType declared ? name(declared) : NONE;
    }

    private static boolean isInterface(TypeMirror type) {
        return type instanceof DeclaredType declared && declared.asElement().getKind() == ElementKind.INTERFACE;
    }

    private static String name(TypeMirror type) {
        if (type instanceof WildcardType wildcard) {
            return wildcard.getExtendsBound() == null ? "?" : name(wildcard.getExtendsBound());
        }
        return type instanceof DeclaredType declared ? declared.asElement() + declared.getTypeArguments().stream()
            .map(Brought::name).collect(Collectors.joining(",", "<", ">")) : "?";
    }
}
