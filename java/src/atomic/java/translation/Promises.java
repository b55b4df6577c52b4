package atomic.java.translation;

import atomic.java.attribution.SourceText;
import atomic.java.attribution.WrittenAnnotations;
import atomic.java.program.Families;
import atomic.java.program.Heirs;
import atomic.java.program.JavaClass;
import atomic.java.program.JavaMethod;
import atomic.java.program.Program;
import com.sun.source.tree.MethodTree;
import java.util.HashMap;
import java.util.List;
import java.util.Map;
import javax.lang.model.element.Modifier;

/** Which methods promise to be atomic: by {@code @Atomic}, by a comment before them, or each public one if so asked. */
final class Promises {
    private final Program program;
    private final Families families;
    private final Heirs heirs;
    private final Map<JavaMethod, Boolean> known = new HashMap<>();
    private final Map<JavaMethod, List<JavaClass>> apart = new HashMap<>();

    Promises(Program program, Families families) {
        this.program = program;
        this.families = families;
        heirs = new Heirs(program, families);
    }

    /** Whether a method promises it, or the one that it overrides does: a promise holds for whatever runs in its place. */
    boolean isAtomic(JavaMethod method) {
        return known.computeIfAbsent(method, this::promises) || families.overridden(method).stream().anyMatch(each ->
            isAtomic(each) || each.isAbstract() && isPublic(each) && !each.owner().isHiddenBase());
    }

    /** Whether a method, or an inherited one as that of some class, promises it. */
    boolean isAsked(JavaMethod method) {
        return method != null && (isAtomic(method) || !apart(method).isEmpty());
    }

    /** The classes as whose own an inherited method promises it, each of which has it in a way of its own. */
    List<JavaClass> apart(JavaMethod method) {
        return apart.computeIfAbsent(method, key -> isOpen(key) && key.owner().isHiddenBase() && !isAtomic(key)
            ? heirs.apart(key) : List.of());
    }

    private boolean promises(JavaMethod method) {
        if (method.symbol().getAnnotationMirrors().stream().anyMatch(each ->
                each.getAnnotationType().asElement().getSimpleName().contentEquals("Atomic"))
                || WrittenAnnotations.has(method.tree(), "Atomic")) {
            return true;
        }
        if (isOpen(method) && (!method.owner().isHiddenBase() || method.isStatic()
                || heirs.apart(method).isEmpty() && heirs.has(method))) {
            return true;
        }
        MethodTree tree = method.tree();
        SourceText text = program.attribution().source(tree);
        return !method.isConstructor()
            && text.saysAtomic(program.attribution().start(tree), program.attribution().nameOffset(tree));
    }

    /** Whether it is a public method, where each of these is asked. */
    private boolean isOpen(JavaMethod method) {
        return isPublic(method) && !method.isConstructor() && !isMain(method) && !method.isAbstract()
            && !method.owner().symbol().getSimpleName().isEmpty();
    }

    private boolean isPublic(JavaMethod method) {
        return program.options().everyPublic() && method.symbol().getModifiers().contains(Modifier.PUBLIC);
    }

    private static boolean isMain(JavaMethod method) {
        return method.isStatic() && method.symbol().getSimpleName().contentEquals("main");
    }
}
