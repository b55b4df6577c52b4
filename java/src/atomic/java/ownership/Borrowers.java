package atomic.java.ownership;

import atomic.java.attribution.Attribution;
import atomic.java.library.Choice;
import atomic.java.library.Library;
import atomic.java.program.JavaMethod;
import atomic.java.program.Program;
import com.sun.source.tree.MethodInvocationTree;
import com.sun.source.tree.NewClassTree;
import com.sun.source.tree.Tree;
import java.util.List;
import java.util.function.Predicate;
import javax.lang.model.element.Element;
import javax.lang.model.element.ElementKind;
import javax.lang.model.element.ExecutableElement;

/**
 * What is given an object that nobody gets from it: a cleaner and a phantom reference, which only point at it, and a stream, which only
 * takes what is in an array. So it is with a constructor that does nothing with a parameter but to compare it and to give it to such
 * a one.
 */
final class Borrowers {
    private final Program program;
    private final Attribution attribution;
    private final Uses uses;
    private final Predicate<Element> keeps;

    /** {@code keeps} says whether a parameter's object gets away in its method. */
    Borrowers(Program program, Uses uses, Predicate<Element> keeps) {
        this.program = program;
        this.uses = uses;
        this.keeps = keeps;
        attribution = program.attribution();
    }

    /** Whether nobody gets what an expression gives from what it is given to. */
    boolean borrow(Tree use) {
        Tree parent = attribution.parent(use);
        if (byLibrary(use, parent)) {
            return true;
        }
        JavaMethod constructor = parent instanceof NewClassTree made && made.getClassBody() == null
            ? program.method(attribution.element(made)) : null;
        // What a record is made of becomes its parts, whether that is written or not.
        boolean known = constructor != null && !constructor.symbol().isVarArgs()
            && constructor.owner().symbol().getKind() != ElementKind.RECORD;
        int at = known ? ((NewClassTree) parent).getArguments().indexOf(use) : -1;
        return at >= 0 && onlyLends(constructor.symbol().getParameters().get(at));
    }

    private boolean onlyLends(Element parameter) {
        Tree home = program.around(uses.declaration(parameter));
        return uses.of(parameter).stream().allMatch(use -> {
            Tree parent = attribution.parent(use);
            boolean compared = parent.getKind() == Tree.Kind.EQUAL_TO || parent.getKind() == Tree.Kind.NOT_EQUAL_TO;
            return program.around(use) == home && (compared || byLibrary(use, parent));
        });
    }

    /** Whether this is the first thing that a library's call or constructor is given from which nobody gets it. */
    private boolean byLibrary(Tree use, Tree parent) {
        List<? extends Tree> given = parent instanceof MethodInvocationTree call ? call.getArguments()
            : parent instanceof NewClassTree made ? made.getArguments() : List.of();
        if (given.isEmpty() || given.get(0) != use || !(attribution.element(parent) instanceof ExecutableElement symbol)
                || program.find(symbol.getEnclosingElement()) != null) {
            return false;
        }
        String key = symbol.getKind() == ElementKind.CONSTRUCTOR ? "new" : Library.key(symbol);
        Choice choice = program.library().choose(symbol.getEnclosingElement().asType(), key);
        boolean assumed = choice.kind() == Choice.Kind.COMPOUND;
        return choice.borrows() && !(assumed && (program.options().strict() || isKeptAtHand(symbol)));
    }

    /** Whether a class at hand has a method in place of this one that keeps what it is given. */
    private boolean isKeptAtHand(ExecutableElement symbol) {
        return program.named(symbol.getSimpleName()).stream().anyMatch(each -> each.isVirtual()
            && attribution.elements().overrides(each.symbol(), symbol, each.owner().symbol())
            && (each.tree().getBody() == null || keeps.test(each.symbol().getParameters().get(0))));
    }
}
