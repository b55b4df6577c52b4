package atomic.java.ownership;

import atomic.java.program.JavaMethod;
import com.sun.source.tree.ExpressionTree;
import com.sun.source.tree.Tree;
import java.util.ArrayList;
import java.util.HashSet;
import java.util.LinkedHashSet;
import java.util.List;
import java.util.Set;
import javax.lang.model.element.Element;
import javax.lang.model.element.VariableElement;

/** Under which names a thing within a field's object is known, as {@link InnerWays} finds them. */
final class Found {
    private final Set<Tree> trees = new LinkedHashSet<>();
    private final Set<Tree> holding = new HashSet<>();
    private final Set<Tree> foreign = new HashSet<>();
    private final Set<Element> names = new LinkedHashSet<>();
    private final Set<Element> foreignNames = new HashSet<>();
    private final Set<JavaMethod> methods = new LinkedHashSet<>();
    private final Set<VariableElement> fields = new HashSet<>();
    private final List<ExpressionTree> given = new ArrayList<>();
    private final Set<Tree> taken = new LinkedHashSet<>();
    private boolean lost;

    /** It goes where nothing more is known of it. */
    void lose() {
        lost = true;
    }

    boolean isLost() {
        return lost;
    }

    /** An expression gives it; {@code own} where it is surely that of this object. */
    void tree(Tree tree, boolean itself, boolean own) {
        if (itself) {
            (own ? trees : foreign).add(tree);
        } else {
            holding.add(tree);
        }
    }

    /** The expressions that give this object's own. */
    Set<Tree> trees() {
        return trees;
    }

    /** Whether an expression gives such a thing that may be another object's, or what holds one. */
    boolean isForeign(Tree tree) {
        return foreign.contains(tree) || holding.contains(tree);
    }

    /** A variable has it. */
    void name(Element variable, boolean itself, boolean own) {
        if (itself) {
            (own ? names : foreignNames).add(variable);
        }
    }

    /** The variables that have this object's own. */
    Set<Element> names() {
        return names;
    }

    boolean isForeign(Element variable) {
        return foreignNames.contains(variable);
    }

    /** A method gives it. */
    void method(JavaMethod method, boolean itself) {
        if (itself) {
            methods.add(method);
        }
    }

    Set<JavaMethod> methods() {
        return methods;
    }

    /** It is put into what a variable holds. */
    void put(VariableElement variable) {
        if (variable.getKind().isField()) {
            fields.add(variable);
        }
    }

    /** The fields into whose objects such things are put. */
    Set<VariableElement> fields() {
        return fields;
    }

    /** What holds such things is given this one, or a function that gives one. */
    void given(ExpressionTree argument) {
        given.add(argument);
    }

    List<ExpressionTree> given() {
        return given;
    }

    /** A call takes one out for good. */
    void taken(Tree call) {
        taken.add(call);
    }

    Set<Tree> taken() {
        return taken;
    }
}
