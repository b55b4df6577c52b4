package atomic.java.ownership;

import atomic.java.attribution.Attribution;
import atomic.java.program.JavaClass;
import atomic.java.program.Program;
import com.sun.source.tree.ExpressionTree;
import com.sun.source.tree.MethodInvocationTree;
import com.sun.source.tree.NewClassTree;
import com.sun.source.tree.Tree;
import java.util.ArrayList;
import java.util.HashSet;
import java.util.List;
import java.util.Set;
import javax.lang.model.element.Element;
import javax.lang.model.element.ElementKind;
import javax.lang.model.element.ExecutableElement;
import javax.lang.model.element.Modifier;
import javax.lang.model.element.TypeElement;
import javax.lang.model.element.VariableElement;

/** What the objects of a private class are made of: all its makings are at hand, each by a constructor that is known. */
public final class Makings {
    private final Program program;
    private final Attribution attribution;
    private final Uses uses;
    private final Sites sites;

    Makings(Program program, Uses uses, Sites sites) {
        this.program = program;
        this.uses = uses;
        this.sites = sites;
        attribution = program.attribution();
    }

    /** What the makings give for a final field that has what a constructor is given; null where that isn't known. */
    public List<ExpressionTree> given(VariableElement field) {
        JavaClass home = program.find(field.getEnclosingElement());
        Set<Modifier> modifiers = field.getModifiers();
        boolean hidden = home != null && program.overriding().below(home).size() <= 1 && home.symbol().getModifiers().contains(Modifier.PRIVATE)
            && modifiers.contains(Modifier.FINAL) && !modifiers.contains(Modifier.STATIC) && !uses.isReflected(field);
        Set<VariableElement> sources = hidden ? sources(field, home.symbol()) : null;
        return sources == null || sources.isEmpty() ? null : arguments(sources);
    }

    /** The parameters of constructors that a field is set from; null where it is set from anything else. */
    private Set<VariableElement> sources(VariableElement field, TypeElement home) {
        Set<VariableElement> found = new HashSet<>();
        for (Uses.Assignment each : uses.assignments(field)) {
            Element source = each.value() == null ? null : attribution.element(Uses.bare(each.value()));
            if (!(source instanceof VariableElement parameter) || parameter.getKind() != ElementKind.PARAMETER
                    || parameter.getEnclosingElement().getKind() != ElementKind.CONSTRUCTOR) {
                return null;
            }
            found.add(parameter);
        }
        if (found.isEmpty() && home.getKind() == ElementKind.RECORD) {
            home.getEnclosedElements().stream().filter(each -> each.getKind() == ElementKind.CONSTRUCTOR)
                .flatMap(each -> ((ExecutableElement) each).getParameters().stream())
                .filter(each -> each.getSimpleName().equals(field.getSimpleName())).forEach(found::add);
        }
        return found.stream().allMatch(each -> uses.assignments(each).isEmpty()
            && !sites.isReferenced(each.getEnclosingElement())) ? found : null;
    }

    private List<ExpressionTree> arguments(Set<VariableElement> parameters) {
        List<ExpressionTree> all = new ArrayList<>();
        for (VariableElement each : parameters) {
            ExecutableElement constructor = (ExecutableElement) each.getEnclosingElement();
            int at = constructor.getParameters().indexOf(each);
            for (Tree site : sites.of(constructor)) {
                List<? extends ExpressionTree> given = site instanceof NewClassTree made ? made.getArguments()
                    : ((MethodInvocationTree) site).getArguments();
                if (constructor.isVarArgs() || at >= given.size()) {
                    return null;
                }
                all.add(given.get(at));
            }
        }
        return all;
    }
}
