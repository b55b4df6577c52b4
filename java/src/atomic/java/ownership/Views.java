package atomic.java.ownership;

import atomic.java.library.Choice;
import atomic.java.program.Program;
import com.sun.source.tree.MethodInvocationTree;
import com.sun.source.tree.Tree;
import java.util.function.Predicate;
import javax.lang.model.element.Element;
import javax.lang.model.element.ExecutableElement;
import javax.lang.model.element.VariableElement;

/** What a library's call gives that shows the contents of its object, such as an iterator or a stage of a stream. */
final class Views {
    private final Program program;
    private final Uses uses;
    private final Escape escape;
    private Predicate<Element> taken = local -> false;

    Views(Program program, Uses uses, Escape escape) {
        this.program = program;
        this.uses = uses;
        this.escape = escape;
    }

    /** From here on it is known which locals take the object of a field for good. */
    void taken(Predicate<Element> locals) {
        taken = locals;
    }

    /** Whether a local takes the object of a field, which goes nowhere else by that. */
    boolean isTaken(Element local) {
        return taken.test(local);
    }

    /** Whether a view goes into a local that may show another object too: which one isn't known there. */
    boolean isLost(Tree view, Element local) {
        return are(view) && local instanceof VariableElement variable && !uses.isSettled(variable);
    }

    /** Whether an expression gives a view. */
    boolean are(Tree tree) {
        if (!(tree instanceof MethodInvocationTree call)
                || !(program.attribution().element(call) instanceof ExecutableElement symbol) || program.method(symbol) != null) {
            return false;
        }
        Choice.Kind kind = escape.choose(call.getMethodSelect(), symbol).kind();
        return kind == Choice.Kind.VIEW || kind == Choice.Kind.PIPE;
    }

    /** Whether a library's method gives the object that it is called on, so that calls can be chained. */
    static boolean givesItself(ExecutableElement symbol) {
        String home = symbol.getEnclosingElement().toString();
        return (home.equals("java.lang.StringBuilder") || home.equals("java.util.StringJoiner"))
            && symbol.getReturnType().toString().equals(home);
    }
}
