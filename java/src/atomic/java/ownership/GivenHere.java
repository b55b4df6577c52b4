package atomic.java.ownership;

import atomic.java.attribution.Attribution;
import atomic.java.program.JavaMethod;
import atomic.java.program.Program;
import com.sun.source.tree.ExpressionTree;
import com.sun.source.tree.MemberSelectTree;
import com.sun.source.tree.MethodInvocationTree;
import com.sun.source.tree.NewClassTree;
import com.sun.source.tree.Tree;
import java.util.List;
import javax.lang.model.element.Element;
import javax.lang.model.element.ElementKind;
import javax.lang.model.element.Modifier;
import javax.lang.model.element.VariableElement;

/** Fields whose objects are given by classes at hand. */
final class GivenHere {
    private final Program program;
    private final Attribution attribution;
    private final Uses uses;
    private final Sites sites;

    GivenHere(Program program, Uses uses, Sites sites) {
        this.program = program;
        this.uses = uses;
        this.sites = sites;
        attribution = program.attribution();
    }

    /** Whether all that a field holds is given by calls on objects of classes at hand, such as their own iterators. */
    boolean is(VariableElement field) {
        List<Uses.Assignment> all = field.getModifiers().contains(Modifier.PRIVATE) ? uses.assignments(field) : List.of();
        return field.getKind() == ElementKind.FIELD && !all.isEmpty() && all.stream().allMatch(each ->
            each.value() != null && Uses.bare(each.value()) instanceof MethodInvocationTree call
            && call.getMethodSelect() instanceof MemberSelectTree select && isAtHand(select.getExpression()));
    }

    /** Whether an expression's class is at hand, or that of each argument which a private class's parameter is given. */
    private boolean isAtHand(ExpressionTree tree) {
        Element symbol = attribution.element(Uses.bare(tree));
        if (program.find(attribution.type(tree)) != null) {
            return true;
        } else if (symbol == null || symbol.getKind() != ElementKind.PARAMETER) {
            return false;
        }
        JavaMethod method = program.method(symbol.getEnclosingElement());
        int at = method == null ? -1 : method.symbol().getParameters().indexOf(symbol);
        boolean hidden = at >= 0 && method.isConstructor() && !sites.isReferenced(method.symbol())
            && method.owner().symbol().getModifiers().contains(Modifier.PRIVATE);
        List<Tree> all = hidden ? sites.of(method.symbol()) : List.of();
        return !all.isEmpty() && all.stream().allMatch(each -> each instanceof NewClassTree made
            && at < made.getArguments().size() && program.find(attribution.type(made.getArguments().get(at))) != null);
    }
}
