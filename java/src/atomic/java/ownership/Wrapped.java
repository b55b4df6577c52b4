package atomic.java.ownership;

import atomic.java.attribution.Attribution;
import atomic.java.program.JavaClass;
import atomic.java.program.Program;
import com.sun.source.tree.ClassTree;
import com.sun.source.tree.MethodInvocationTree;
import com.sun.source.tree.Tree;
import java.util.List;
import javax.lang.model.element.ExecutableElement;

/** Classes whose objects are only made for a library's wrapper, such as a collection for {@code synchronizedMap}. */
public final class Wrapped {
    private final Program program;
    private final Attribution attribution;
    private final Escape escape;
    private final Sites sites;

    Wrapped(Program program, Escape escape, Sites sites) {
        this.program = program;
        this.escape = escape;
        this.sites = sites;
        attribution = program.attribution();
    }

    /** Whether objects of a class are only made for a library's wrapper, which takes a lock around each call of theirs. */
    public boolean is(JavaClass each) {
        List<Tree> makings = sites.makings(each);
        return !makings.isEmpty() && makings.stream().allMatch(making ->
            attribution.parent(making) instanceof MethodInvocationTree call
            && attribution.element(call) instanceof ExecutableElement symbol && program.method(symbol) == null
            && "java.util.Collections.Synchronized".equals(escape.choose(call.getMethodSelect(), symbol).makes()));
    }

    /** Whether that lock is the one of the object around such an object. */
    public boolean isByOuter(JavaClass each) {
        return each.hasOuterObject() && is(each) && sites.makings(each).stream().allMatch(making ->
            attribution.parent(making) instanceof MethodInvocationTree call && call.getArguments().size() == 2
            && Uses.isName(Uses.bare(call.getArguments().get(1)), "this") && isDirectlyIn(making, each.outer()));
    }

    private boolean isDirectlyIn(Tree tree, JavaClass wanted) {
        Tree each = tree;
        while (each != null && !(each instanceof ClassTree)) {
            each = attribution.parent(each);
        }
        return each != null && program.find(attribution.element(each)) == wanted;
    }
}
