package atomic.java.ownership;

import atomic.java.attribution.Attribution;
import atomic.java.program.JavaClass;
import atomic.java.program.JavaMethod;
import atomic.java.program.Program;
import com.sun.source.tree.ClassTree;
import com.sun.source.tree.ExpressionTree;
import com.sun.source.tree.LambdaExpressionTree;
import com.sun.source.tree.MemberReferenceTree;
import com.sun.source.tree.MethodInvocationTree;
import com.sun.source.tree.NewClassTree;
import com.sun.source.tree.ReturnTree;
import com.sun.source.tree.Tree;
import com.sun.source.util.TreeScanner;
import java.util.ArrayList;
import java.util.HashMap;
import java.util.HashSet;
import java.util.List;
import java.util.Map;
import java.util.Set;
import javax.lang.model.element.Element;

/** Where each method and constructor is called, in all sources. */
final class Sites {
    private final Program program;
    private final Attribution attribution;
    private final Map<Element, List<Tree>> calls = new HashMap<>();
    private final Map<Element, List<Tree>> makings = new HashMap<>();
    private final Set<Element> referenced = new HashSet<>();

    Sites(Program program) {
        this.program = program;
        attribution = program.attribution();
        attribution.units().forEach(unit -> new Scanner().scan(unit, null));
    }

    private final class Scanner extends TreeScanner<Void, Void> {

        @Override
        public Void visitMethodInvocation(MethodInvocationTree tree, Void nothing) {
            calls.computeIfAbsent(attribution.element(tree), key -> new ArrayList<>()).add(tree);
            return super.visitMethodInvocation(tree, nothing);
        }

        @Override
        public Void visitNewClass(NewClassTree tree, Void nothing) {
            Element constructor = attribution.element(tree);
            calls.computeIfAbsent(constructor, key -> new ArrayList<>()).add(tree);
            if (constructor != null) {
                makings.computeIfAbsent(constructor.getEnclosingElement(), key -> new ArrayList<>()).add(tree);
            }
            return super.visitNewClass(tree, nothing);
        }

        @Override
        public Void visitMemberReference(MemberReferenceTree tree, Void nothing) {
            referenced.add(attribution.element(tree));
            return super.visitMemberReference(tree, nothing);
        }
    }

    /** All calls of a method, or makings by a constructor. */
    List<Tree> of(Element method) {
        return calls.getOrDefault(method, List.of());
    }

    /** Where objects of a class are made. */
    List<Tree> makings(JavaClass made) {
        return makings.getOrDefault(made.symbol(), List.of());
    }

    /** Whether the name of a method stands as a function, so that anybody may call it. */
    boolean isReferenced(Element method) {
        return referenced.contains(method);
    }

    /** Whether no class within another one extends it: there a name without an object would mean one of two. */
    boolean hasNoHeirWithin(JavaClass home) {
        return program.overriding().below(home).stream().noneMatch(each -> each != home && isWithin(each, home));
    }

    private static boolean isWithin(JavaClass each, JavaClass home) {
        return each != null && (each.outer() == home || isWithin(each.outer(), home));
    }

    /** The expressions that a method returns. */
    List<ExpressionTree> results(JavaMethod method) {
        List<ExpressionTree> found = new ArrayList<>();
        new TreeScanner<Void, Void>() {
            @Override
            public Void visitReturn(ReturnTree tree, Void nothing) {
                found.add(tree.getExpression());
                return super.visitReturn(tree, nothing);
            }

            @Override
            public Void visitLambdaExpression(LambdaExpressionTree tree, Void nothing) {
                return null;
            }

            @Override
            public Void visitClass(ClassTree tree, Void nothing) {
                return null;
            }
        }.scan(method.tree().getBody(), null);
        return found;
    }
}
