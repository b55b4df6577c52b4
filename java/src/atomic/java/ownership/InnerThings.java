package atomic.java.ownership;

import atomic.java.program.JavaMethod;
import atomic.java.program.Program;
import com.sun.source.tree.LambdaExpressionTree;
import com.sun.source.tree.MethodTree;
import com.sun.source.tree.Tree;
import java.util.ArrayList;
import java.util.LinkedHashMap;
import java.util.List;
import java.util.Map;
import java.util.Set;
import java.util.function.Predicate;
import javax.lang.model.element.Element;
import javax.lang.model.element.ElementKind;
import javax.lang.model.element.VariableElement;
import javax.lang.model.type.TypeMirror;

/** What is within the objects of fields, such as the lists in a map of lists, and where each kind of these gets out. */
public final class InnerThings {
    private final Program program;
    private final Ownership ownership;

    /**
     * What is known of one kind of things within a field's object.
     *
     * @param field whose object has them
     * @param type what the things are
     * @param outs where one gets out, each with the method in which that is
     * @param changed whether some code here surely changes one
     */
    public record Ways(VariableElement field, TypeMirror type, Map<Tree, JavaMethod> outs, boolean changed) { }

    public InnerThings(Program program, Ownership ownership) {
        this.program = program;
        this.ownership = ownership;
    }

    /** All ways of the things within the fields at hand; {@code asked} says which methods are asked to be atomic. */
    public List<Ways> find(Predicate<JavaMethod> asked) {
        InnerTypes types = new InnerTypes(program);
        List<Ways> all = new ArrayList<>();
        program.classes().forEach(each -> {
            for (Element member : each.symbol().getEnclosedElements()) {
                if (member instanceof VariableElement field && field.getKind() == ElementKind.FIELD) {
                    types.within(field).forEach(type -> all.add(ways(field, type, asked)));
                }
            }
        });
        return all;
    }

    private Ways ways(VariableElement field, TypeMirror type, Predicate<JavaMethod> asked) {
        InnerWays ways = new InnerWays(program, ownership, type, asked).from(field);
        Map<Tree, JavaMethod> outs = new LinkedHashMap<>();
        Set<Tree> all = ways.outs();
        all.forEach(each -> outs.put(each, home(each, program)));
        return new Ways(field, type, outs, ways.isChanged());
    }

    /** Whether a thing gets out in a method that is refused for that, and that nobody here calls. */
    static boolean isTold(Tree out, Program program, Ownership ownership, Predicate<JavaMethod> asked) {
        JavaMethod method = home(out, program);
        return method != null && asked.test(method) && !ownership.isCalled(method)
            && !(program.around(out) instanceof LambdaExpressionTree);
    }

    /** The method that a tree stands in; null where it is none. */
    static JavaMethod home(Tree tree, Program program) {
        Tree around = program.around(tree);
        while (around != null && !(around instanceof MethodTree)) {
            around = program.around(around);
        }
        return around == null ? null : program.method(program.attribution().element(around));
    }
}
