package atomic.java.ownership;

import atomic.java.attribution.Attribution;
import atomic.java.program.Program;
import com.sun.source.tree.BlockTree;
import com.sun.source.tree.ClassTree;
import com.sun.source.tree.CompilationUnitTree;
import com.sun.source.tree.MethodInvocationTree;
import com.sun.source.tree.MethodTree;
import com.sun.source.tree.Tree;
import com.sun.source.tree.VariableTree;
import com.sun.source.util.TreeScanner;
import java.util.ArrayDeque;
import java.util.Collections;
import java.util.Deque;
import java.util.HashMap;
import java.util.HashSet;
import java.util.IdentityHashMap;
import java.util.LinkedHashSet;
import java.util.Map;
import java.util.Set;
import javax.lang.model.element.Element;
import javax.lang.model.element.ExecutableElement;
import javax.lang.model.type.ArrayType;
import javax.lang.model.type.DeclaredType;
import javax.lang.model.type.TypeMirror;

/**
 * Which sources, and which members of their classes, speak of a class: by the type of an expression or a variable, or in
 * the signature of a method that they name. What is done with objects of a class is done there, so nothing else need be
 * looked through for it.
 */
final class Mentions {
    private final Program program;
    private final Attribution attribution;
    private final Map<Element, Set<CompilationUnitTree>> units = new HashMap<>();
    private final Map<Element, Set<Tree>> members = new HashMap<>();
    private final Set<Tree> copying = new HashSet<>();

    Mentions(Program program) {
        this.program = program;
        attribution = program.attribution();
        attribution.units().forEach(unit -> new Scanner(unit).scan(unit, null));
    }

    /** The sources that speak of a class. */
    Set<CompilationUnitTree> units(Element spokenOf) {
        return units.getOrDefault(spokenOf, Set.of());
    }

    /** Whether a tree is a member of a class that neither speaks of this one nor copies an object by {@code clone()}. */
    boolean isSilent(Tree tree, Element spokenOf) {
        return isMember(tree) && !copying.contains(tree) && !members.getOrDefault(spokenOf, Set.of()).contains(tree);
    }

    /** Whether a tree is a field, a method or an initialiser of a class. */
    private boolean isMember(Tree tree) {
        return (tree instanceof MethodTree || tree instanceof VariableTree || tree instanceof BlockTree)
            && attribution.parent(tree) instanceof ClassTree;
    }

    private final class Scanner extends TreeScanner<Void, Void> {
        private final CompilationUnitTree unit;
        private final Deque<Tree> around = new ArrayDeque<>();
        private Set<Object> seen = Collections.newSetFromMap(new IdentityHashMap<>());

        Scanner(CompilationUnitTree unit) {
            this.unit = unit;
        }

        @Override
        public Void scan(Tree tree, Void nothing) {
            if (!isMember(tree)) {
                return look(tree);
            }
            Set<Object> before = seen;
            seen = Collections.newSetFromMap(new IdentityHashMap<>());
            around.push(tree);
            look(tree);
            around.pop();
            seen = before;
            return null;
        }

        private Void look(Tree tree) {
            Element symbol = attribution.element(tree);
            if (symbol != null && seen.add(symbol)) {
                mention(symbol.asType());
                if (symbol instanceof ExecutableElement method) {
                    mention(method.getReturnType());
                    method.getParameters().forEach(each -> mention(each.asType()));
                }
            }
            mention(attribution.type(tree));
            return super.scan(tree, null);
        }

        @Override
        public Void visitMethodInvocation(MethodInvocationTree tree, Void nothing) {
            if (attribution.element(tree) != null && attribution.element(tree).getSimpleName().contentEquals("clone")) {
                copying.addAll(around);
            }
            return super.visitMethodInvocation(tree, nothing);
        }

        private void mention(TypeMirror type) {
            if (type == null || !seen.add(type)) {
                return;
            } else if (type instanceof ArrayType array) {
                mention(array.getComponentType());
            } else if (type instanceof DeclaredType declared) {
                if (program.find(declared.asElement()) != null) {
                    units.computeIfAbsent(declared.asElement(), key -> new LinkedHashSet<>()).add(unit);
                    members.computeIfAbsent(declared.asElement(), key -> new HashSet<>()).addAll(around);
                }
                declared.getTypeArguments().forEach(this::mention);
            }
        }
    }
}
