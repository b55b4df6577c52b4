package atomic.java.translation;

import atomic.java.library.Choice;
import atomic.java.library.Library;
import atomic.java.ownership.Ownership;
import atomic.java.ownership.Uses;
import atomic.java.program.JavaClass;
import atomic.java.program.JavaMethod;
import com.sun.source.tree.ArrayAccessTree;
import com.sun.source.tree.AssignmentTree;
import com.sun.source.tree.BinaryTree;
import com.sun.source.tree.BlockTree;
import com.sun.source.tree.CompoundAssignmentTree;
import com.sun.source.tree.EnhancedForLoopTree;
import com.sun.source.tree.ExpressionTree;
import com.sun.source.tree.IdentifierTree;
import com.sun.source.tree.LambdaExpressionTree;
import com.sun.source.tree.MemberReferenceTree;
import com.sun.source.tree.MemberSelectTree;
import com.sun.source.tree.MethodInvocationTree;
import com.sun.source.tree.NewClassTree;
import com.sun.source.tree.Tree;
import com.sun.source.tree.UnaryTree;
import com.sun.source.tree.VariableTree;
import com.sun.source.util.TreeScanner;
import java.util.EnumSet;
import java.util.HashMap;
import java.util.Map;
import java.util.Set;
import javax.lang.model.element.Element;
import javax.lang.model.element.ElementKind;
import javax.lang.model.element.ExecutableElement;
import javax.lang.model.element.Modifier;
import javax.lang.model.element.VariableElement;
import javax.lang.model.type.DeclaredType;
import javax.lang.model.type.TypeMirror;

/**
 * Methods of the sources that only compute: from what they are given and from final fields, without a step, and with nothing
 * that others could see but the value that they give. Whether such a method is called once or again makes no difference. A
 * constructor is such a one where it only fills the new object's own fields.
 */
final class Computing {
    private static final Set<Tree.Kind> REFUSED = EnumSet.of(Tree.Kind.SYNCHRONIZED, Tree.Kind.TRY,
        Tree.Kind.LAMBDA_EXPRESSION, Tree.Kind.CLASS);
    private static final Set<String> BASES = Set.of("java.lang.Object", "java.lang.Record");

    private final Services services;
    private final Map<JavaMethod, Boolean> known = new HashMap<>();

    Computing(Services services) {
        this.services = services;
    }

    /** Whether a method only computes, whichever one runs in its place. One that calls itself isn't looked at further. */
    boolean only(JavaMethod method) {
        Boolean before = known.get(method);
        if (before == null) {
            known.put(method, false);
            before = find(method);
            known.put(method, before);
        }
        return before;
    }

    private boolean find(JavaMethod method) {
        boolean plain = method.tree().getBody() != null
            && !method.symbol().getModifiers().contains(Modifier.SYNCHRONIZED);
        if (!plain || !isAlone(method) || method.isConstructor() && !isBase(method)) {
            return false;
        }
        Scanner scanner = new Scanner(method);
        scanner.scan(method.tree().getBody(), null);
        if (method.isConstructor()) {
            method.owner().tree().getMembers().stream().filter(Computing::isInitialiser)
                .forEach(each -> scanner.scan(each, null));
        }
        return scanner.holds;
    }

    /** Whether the static initialisers of a class only compute. */
    boolean only(JavaClass begun) {
        Scanner scanner = new Scanner(null);
        for (Tree member : begun.tree().getMembers()) {
            boolean runs = member instanceof BlockTree block && block.isStatic() || member instanceof VariableTree field
                && (field.getModifiers().getFlags().contains(Modifier.STATIC) || begun.isInterface());
            if (runs) {
                scanner.scan(member, null);
            }
        }
        return scanner.holds;
    }

    private static boolean isInitialiser(Tree member) {
        return member instanceof VariableTree field && !field.getModifiers().getFlags().contains(Modifier.STATIC)
            || member instanceof BlockTree block && !block.isStatic();
    }

    private static boolean isBase(JavaMethod constructor) {
        String above = constructor.owner().symbol().getSuperclass().toString();
        return BASES.contains(above);
    }

    private boolean isAlone(JavaMethod method) {
        return !method.isVirtual() || !services.program().overriding().isOverridden(method);
    }

    /** Whether a function that a call is given only computes. */
    boolean only(ExpressionTree function) {
        if (function instanceof LambdaExpressionTree lambda) {
            return Attempt.onlyComputes(lambda, services);
        }
        return function instanceof MemberReferenceTree reference
            && services.attribution().element(reference) instanceof ExecutableElement symbol && only(reference, symbol);
    }

    private boolean only(MemberReferenceTree reference, ExecutableElement symbol) {
        Element qualifier = services.attribution().element(Uses.bare(reference.getQualifierExpression()));
        JavaMethod method = services.program().method(symbol);
        if (qualifier == null || !qualifier.getKind().isClass() && !qualifier.getKind().isInterface()) {
            return false;
        }
        String key = symbol.getKind() == ElementKind.CONSTRUCTOR ? "new" : Library.key(symbol);
        return method != null ? only(method) : services.program().find(symbol.getEnclosingElement()) == null
            && Retries.onlyComputes(services.program().library().choose(symbol.getEnclosingElement().asType(), key));
    }

    /** Whether a call only computes. */
    boolean only(MethodInvocationTree call) {
        if (!(services.attribution().element(call) instanceof ExecutableElement symbol)) {
            return false;
        }
        JavaMethod method = services.program().method(symbol);
        if (method != null) {
            return only(method);
        }
        boolean base = symbol.getKind() == ElementKind.CONSTRUCTOR && BASES.contains(symbol.getEnclosingElement().toString());
        Choice choice = services.ownership().escape().choose(call.getMethodSelect(), symbol);
        return base || Retries.onlyComputes(choice) || own(call) != null
            || choice.kind() == Choice.Kind.READS && call.getMethodSelect() instanceof MemberSelectTree select
                && services.immutable(select.getExpression()) != null;
    }

    /** The local whose new collection a call looks at or changes, where nobody else knows that one yet; else null. */
    VariableElement own(MethodInvocationTree call) {
        if (!(services.attribution().element(call) instanceof ExecutableElement symbol) || services.program().method(symbol) != null
                || !(call.getMethodSelect() instanceof MemberSelectTree select)
                || !(services.attribution().element(Uses.bare(select.getExpression())) instanceof VariableElement local)) {
            return null;
        }
        Choice.Kind kind = services.ownership().escape().choose(select, symbol).kind();
        boolean contents = kind == Choice.Kind.READS || kind == Choice.Kind.WRITES;
        return contents && local.getKind() == ElementKind.LOCAL_VARIABLE && Ownership.isNew(services.ownership().made(local))
            && services.attribution().start(call) < services.ownership().escapes(local) ? local : null;
    }

    /** Whether the making of an object does nothing but to fill its own fields. */
    boolean only(NewClassTree made) {
        JavaMethod constructor = services.program().method(services.attribution().element(made));
        JavaClass known = services.program().find(services.attribution().type(made));
        return made.getClassBody() == null && (constructor != null ? only(constructor)
            : known != null ? known.symbol().getKind() == ElementKind.RECORD : Retries.onlyComputes(
                services.program().library().choose(services.attribution().type(made), "new")));
    }

    /** Looks through a body. */
    private final class Scanner extends TreeScanner<Void, Void> {
        private final JavaMethod method;
        private boolean holds = true;

        Scanner(JavaMethod method) {
            this.method = method;
        }

        @Override
        public Void scan(Tree tree, Void nothing) {
            holds &= tree == null || !REFUSED.contains(tree.getKind()) && !(tree instanceof ArrayAccessTree)
                && !(tree instanceof EnhancedForLoopTree);
            return holds ? super.scan(tree, nothing) : null;
        }

        @Override
        public Void visitIdentifier(IdentifierTree tree, Void nothing) {
            holds &= isFixed(services.attribution().element(tree));
            return null;
        }

        @Override
        public Void visitMemberSelect(MemberSelectTree tree, Void nothing) {
            holds &= isFixed(services.attribution().element(tree));
            return super.visitMemberSelect(tree, nothing);
        }

        private boolean isFixed(Element symbol) {
            return !(symbol instanceof VariableElement variable) || !variable.getKind().isField()
                || variable.getModifiers().contains(Modifier.FINAL) || variable.getSimpleName().contentEquals("length");
        }

        @Override
        public Void visitAssignment(AssignmentTree tree, Void nothing) {
            change(tree.getVariable());
            return scan(tree.getExpression(), nothing);
        }

        @Override
        public Void visitCompoundAssignment(CompoundAssignmentTree tree, Void nothing) {
            change(tree.getVariable());
            return super.visitCompoundAssignment(tree, nothing);
        }

        @Override
        public Void visitUnary(UnaryTree tree, Void nothing) {
            switch (tree.getKind()) {
                case PREFIX_INCREMENT, PREFIX_DECREMENT, POSTFIX_INCREMENT, POSTFIX_DECREMENT -> change(tree.getExpression());
                default -> { }
            }
            return super.visitUnary(tree, nothing);
        }

        /** What is assigned is a local, or a field of the object that a constructor makes. */
        private void change(ExpressionTree target) {
            ExpressionTree bare = Uses.bare(target);
            Element symbol = services.attribution().element(bare);
            boolean own = bare instanceof IdentifierTree
                || bare instanceof MemberSelectTree select && Uses.isName(select.getExpression(), "this");
            holds &= own && symbol instanceof VariableElement variable && (!variable.getKind().isField()
                || method != null && method.isConstructor() && variable.getEnclosingElement() == method.owner().symbol()
                && !variable.getModifiers().contains(Modifier.STATIC));
        }

        @Override
        public Void visitMemberReference(MemberReferenceTree tree, Void nothing) {
            holds &= only(tree);
            return null;
        }

        @Override
        public Void visitMethodInvocation(MethodInvocationTree tree, Void nothing) {
            holds &= only(tree);
            return super.visitMethodInvocation(tree, nothing);
        }

        @Override
        public Void visitNewClass(NewClassTree tree, Void nothing) {
            holds &= only(tree);
            return super.visitNewClass(tree, nothing);
        }

        /** A part of a text must be a value, since {@code toString} of anything else is called. */
        @Override
        public Void visitBinary(BinaryTree tree, Void nothing) {
            boolean text = String.valueOf(services.attribution().type(tree)).equals("java.lang.String");
            holds &= !text || isValue(tree.getLeftOperand()) && isValue(tree.getRightOperand());
            return super.visitBinary(tree, nothing);
        }

        private boolean isValue(ExpressionTree tree) {
            TypeMirror type = services.attribution().type(tree);
            return type == null || !(type instanceof DeclaredType) || type.toString().equals("java.lang.String");
        }
    }
}
