package atomic.java.attribution;

import com.sun.source.tree.AnnotationTree;
import com.sun.source.tree.AssignmentTree;
import com.sun.source.tree.ExpressionTree;
import com.sun.source.tree.IdentifierTree;
import com.sun.source.tree.LiteralTree;
import com.sun.source.tree.MemberSelectTree;
import com.sun.source.tree.MethodTree;
import com.sun.source.tree.NewArrayTree;
import com.sun.source.tree.Tree;
import com.sun.source.tree.VariableTree;
import java.util.ArrayList;
import java.util.List;

/**
 * Annotations as they stand in a source. They count by their simple names, so that one whose class isn't in the class path
 * counts too; javac leaves such a one out of what it knows of the declaration.
 */
public final class WrittenAnnotations {

    private WrittenAnnotations() { }

    /** Whether a declaration has an annotation of this name. */
    public static boolean has(Tree declaration, String name) {
        return annotations(declaration).stream().anyMatch(each -> name(each).equals(name));
    }

    /** The texts among the arguments of a declaration's annotations of these names. */
    public static List<String> words(Tree declaration, List<String> names) {
        List<String> words = new ArrayList<>();
        for (AnnotationTree each : annotations(declaration)) {
            if (names.contains(name(each))) {
                each.getArguments().forEach(argument -> collect(argument, words));
            }
        }
        return words;
    }

    private static List<? extends AnnotationTree> annotations(Tree declaration) {
        if (declaration instanceof MethodTree method) {
            return method.getModifiers().getAnnotations();
        }
        return declaration instanceof VariableTree variable ? variable.getModifiers().getAnnotations() : List.of();
    }

    private static String name(AnnotationTree annotation) {
        Tree type = annotation.getAnnotationType();
        return type instanceof MemberSelectTree member ? member.getIdentifier().toString()
            : type instanceof IdentifierTree name ? name.getName().toString() : "";
    }

    private static void collect(ExpressionTree argument, List<String> words) {
        if (argument instanceof AssignmentTree named) {
            collect(named.getExpression(), words);
        } else if (argument instanceof NewArrayTree list) {
            list.getInitializers().forEach(each -> collect(each, words));
        } else if (argument instanceof LiteralTree literal && literal.getValue() instanceof String word) {
            words.add(word);
        }
    }
}
