package atomic.java.translation;

import atomic.java.library.Choice;
import atomic.java.ownership.Uses;
import atomic.java.program.JavaClass;
import com.sun.source.tree.CompilationUnitTree;
import com.sun.source.tree.ExpressionTree;
import com.sun.source.tree.LambdaExpressionTree;
import com.sun.source.tree.MemberReferenceTree;
import com.sun.source.tree.MemberSelectTree;
import com.sun.source.tree.MethodInvocationTree;
import com.sun.source.tree.NewClassTree;
import com.sun.source.util.TreeScanner;
import java.util.ArrayList;
import java.util.HashMap;
import java.util.HashSet;
import java.util.LinkedHashSet;
import java.util.List;
import java.util.Map;
import java.util.Set;
import javax.lang.model.element.Element;
import javax.lang.model.element.ElementKind;
import javax.lang.model.element.ExecutableElement;
import javax.lang.model.element.Modifier;
import javax.lang.model.element.TypeElement;
import javax.lang.model.type.DeclaredType;
import javax.lang.model.type.TypeKind;
import javax.lang.model.type.TypeMirror;

/**
 * Library objects that keep an object of the sources and call it later: a {@code PrintStream} writes into the stream that it
 * is made of, and a pool of threads asks its factory. Where such an object is made somewhere, each call on one of its class
 * may call the other.
 */
final class Wrappers {
    /** What other threads run, or what is called by methods that count as several steps. */
    private static final Set<String> ELSEWHERE = Set.of("java.lang.Runnable", "java.util.concurrent.Callable");
    /** Types of objects that are rarely of such a class. */
    private static final Set<String> BROAD = Set.of("java.lang.Object", "java.util.Iterator");
    private static final Set<String> SETTING = Set.of("setOut", "setErr", "setIn");

    private final Services services;
    private final Map<Element, List<Wrapping>> byType = new HashMap<>();
    private final Map<Element, List<JavaClass>> below = new HashMap<>();
    private Set<Wrapping> found;
    private boolean setsStreams;

    /** Objects of {@code wrapper} may keep one of {@code inner}, and call its methods that are in place of {@code wanted}'s. */
    record Wrapping(TypeElement wrapper, JavaClass inner, TypeElement wanted) { }

    Wrappers(Services services) {
        this.services = services;
    }

    /** What a call may call besides: of its object, and of those among its arguments that it doesn't keep. */
    List<Wrapping> within(LibraryCalls.Called called) {
        if (found == null) {
            found = new LinkedHashSet<>();
            for (CompilationUnitTree unit : services.attribution().units()) {
                new Scanner().scan(unit, null);
            }
        }
        if (found.isEmpty() || called.choice().kind() == Choice.Kind.COMPOUND) {
            return List.of();
        }
        List<ExpressionTree> asked = new ArrayList<>();
        if (called.at() instanceof MethodInvocationTree call && call.getMethodSelect() instanceof MemberSelectTree select
                && !Uses.isName(select.getExpression(), "super") && !isStandard(select.getExpression())) {
            asked.add(select.getExpression());
        }
        if (!called.choice().keeps()) {
            asked.addAll(called.arguments());
        }
        Set<Wrapping> related = new HashSet<>();
        asked.forEach(object -> related.addAll(related(services.attribution().type(object))));
        return related.isEmpty() ? List.of() : found.stream().filter(related::contains).toList();
    }

    /** Those whose objects one of a type may be. */
    private List<Wrapping> related(TypeMirror type) {
        TypeMirror erased = erased(type);
        if (erased == null || erased.getKind() != TypeKind.DECLARED || BROAD.contains(erased.toString())) {
            return List.of();
        }
        return byType.computeIfAbsent(element(erased), key -> found.stream()
            .filter(each -> isRelated(erased, erased(each.wrapper().asType()))).toList());
    }

    /** Whether an expression is one of the program's own streams, which no one sets here. */
    private boolean isStandard(ExpressionTree object) {
        Element field = services.attribution().element(object);
        return field != null && field.getKind() == ElementKind.FIELD && !setsStreams
            && field.getEnclosingElement().toString().equals("java.lang.System");
    }

    private boolean isRelated(TypeMirror one, TypeMirror other) {
        var types = services.attribution().types();
        return types.isSubtype(one, other) || types.isSubtype(other, one);
    }

    private Element element(TypeMirror type) {
        return services.attribution().types().asElement(type);
    }

    private TypeMirror erased(TypeMirror type) {
        return type == null ? null : services.attribution().types().erasure(type);
    }

    private final class Scanner extends TreeScanner<Void, Void> {

        @Override
        public Void visitNewClass(NewClassTree tree, Void nothing) {
            if (services.attribution().element(tree) instanceof ExecutableElement made) {
                keep(made, made.getEnclosingElement().asType(), "new", tree.getArguments());
            }
            return super.visitNewClass(tree, nothing);
        }

        @Override
        public Void visitMethodInvocation(MethodInvocationTree tree, Void nothing) {
            if (services.attribution().element(tree) instanceof ExecutableElement called) {
                if (called.getKind() == ElementKind.CONSTRUCTOR) {
                    keep(called, called.getEnclosingElement().asType(), "new", tree.getArguments());
                } else if (called.getModifiers().contains(Modifier.STATIC)) {
                    setsStreams |= SETTING.contains(called.getSimpleName().toString())
                        && called.getEnclosingElement().toString().equals("java.lang.System");
                    keep(called, called.getReturnType(), called.getSimpleName().toString(), tree.getArguments());
                }
            }
            return super.visitMethodInvocation(tree, nothing);
        }

        /** What is given to a library's constructor, or to a method that makes an object, where that keeps it. */
        private void keep(ExecutableElement maker, TypeMirror made, String name, List<? extends ExpressionTree> arguments) {
            Element home = maker.getEnclosingElement();
            boolean shows = home.toString().equals("java.util.Collections");
            if (shows || services.program().find(home) != null || !(made instanceof DeclaredType declared)
                    || !services.program().library().choose(home.asType(), name).keeps()) {
                return;
            }
            for (int k = 0; k < arguments.size(); k++) {
                TypeElement wanted = Callbacks.parameter(services, maker, k);
                ExpressionTree given = Callbacks.written(arguments.get(k));
                boolean function = given instanceof LambdaExpressionTree || given instanceof MemberReferenceTree;
                if (wanted != null && !function && !ELSEWHERE.contains(wanted.toString())
                        && services.program().find(wanted) == null) {
                    inner(given).forEach(each -> found.add(new Wrapping((TypeElement) declared.asElement(), each, wanted)));
                }
            }
        }

        /** The classes of the sources that a given object may have. */
        private List<JavaClass> inner(ExpressionTree given) {
            TypeMirror type = services.attribution().type(given);
            JavaClass known = type == null ? null : services.program().find(type);
            if (known != null || type == null || type.getKind() != TypeKind.DECLARED) {
                return known == null ? List.of() : List.of(known);
            }
            return below.computeIfAbsent(element(type), key -> services.program().classes().stream().filter(each ->
                services.attribution().types().isSubtype(erased(each.symbol().asType()), erased(type))).toList());
        }
    }
}
