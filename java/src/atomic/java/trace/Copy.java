package atomic.java.trace;

import atomic.java.attribution.Attribution;
import com.sun.source.tree.MethodTree;
import com.sun.source.tree.Tree;
import com.sun.source.tree.VariableTree;
import com.sun.source.util.TreeScanner;
import java.util.ArrayList;
import java.util.Comparator;
import java.util.List;
import javax.lang.model.util.Elements;

/** The text of a tree in which some of its parts are said otherwise. */
abstract class Copy {
    private final Attribution attribution;
    private final String text;

    Copy(Attribution attribution, String text) {
        this.attribution = attribution;
        this.text = text;
    }

    /** The text that stands for a tree; by default its own, with the texts of its parts. */
    abstract String of(Tree tree);

    final Attribution attribution() {
        return attribution;
    }

    final String text(long from, long to) {
        return text.substring((int) from, (int) to);
    }

    /** The tree's own text with the texts of its parts. */
    final String plain(Tree tree) {
        return between(attribution.start(tree), attribution.end(tree), parts(tree));
    }

    /** The text from one place to another, in which these trees stand. */
    final String between(long from, long to, List<? extends Tree> trees) {
        StringBuilder copy = new StringBuilder();
        long at = from;
        for (Tree tree : trees) {
            long start = attribution.start(tree);
            if (start >= at && attribution.end(tree) > start && attribution.end(tree) <= to) {
                copy.append(text, (int) at, (int) start).append(of(tree));
                at = attribution.end(tree);
            }
        }
        return copy.append(text, (int) at, (int) to).toString();
    }

    /** The direct parts of a tree in the order of the text; of a variable its first value alone. */
    final List<Tree> parts(Tree tree) {
        List<Tree> found = new ArrayList<>();
        tree.accept(new TreeScanner<Void, Void>() {
            @Override
            public Void scan(Tree part, Void nothing) {
                if (part instanceof VariableTree variable) {
                    scan(variable.getInitializer(), nothing);
                } else if (part != null && attribution.start(part) >= 0 && isWritten(part)) {
                    found.add(part);
                }
                return null;
            }
        }, null);
        found.sort(Comparator.comparingLong(attribution::start));
        return found;
    }

    /** Constructors and members that nobody wrote have places all the same. */
    private boolean isWritten(Tree tree) {
        return !(tree instanceof MethodTree) || attribution.element(tree) != null
            && attribution.elements().getOrigin(attribution.element(tree)) == Elements.Origin.EXPLICIT;
    }
}
