package atomic.java.translation;

import atomic.java.ownership.Uses;
import com.sun.source.tree.AssignmentTree;
import com.sun.source.tree.BinaryTree;
import com.sun.source.tree.ClassTree;
import com.sun.source.tree.CompoundAssignmentTree;
import com.sun.source.tree.ExpressionStatementTree;
import com.sun.source.tree.ExpressionTree;
import com.sun.source.tree.IdentifierTree;
import com.sun.source.tree.LambdaExpressionTree;
import com.sun.source.tree.LiteralTree;
import com.sun.source.tree.MemberSelectTree;
import com.sun.source.tree.MethodInvocationTree;
import com.sun.source.tree.NewClassTree;
import com.sun.source.tree.StatementTree;
import com.sun.source.tree.Tree;
import com.sun.source.tree.UnaryTree;
import com.sun.source.tree.VariableTree;
import com.sun.source.util.TreeScanner;
import java.util.HashSet;
import java.util.List;
import java.util.Set;
import javax.lang.model.element.Element;
import javax.lang.model.element.ElementKind;
import javax.lang.model.element.VariableElement;
import javax.lang.model.type.DeclaredType;
import javax.lang.model.type.TypeKind;
import javax.lang.model.type.TypeMirror;

/**
 * A look at a variable, and the attempt to change it from what was looked at. A turn around them keeps nothing for the
 * next one where it only computes: each local from outside the turn is assigned before it is read, and nothing else is
 * changed, no code of others runs, and no jump goes on with the next turn from the middle.
 *
 * @param look the call that looks
 * @param change the attempt
 * @param old the local that keeps what was looked at
 */
record Attempt(MethodInvocationTree look, MethodInvocationTree change, VariableElement old, Services services) {
    private static final Set<String> CLASSES = Set.of("java.util.concurrent.atomic.AtomicInteger",
        "java.util.concurrent.atomic.AtomicLong", "java.util.concurrent.atomic.AtomicBoolean",
        "java.util.concurrent.atomic.AtomicReference");
    private static final Set<String> CHANGES = Set.of("compareAndSet", "weakCompareAndSetVolatile");
    private static final Set<String> MAPS = Set.of("java.util.concurrent.ConcurrentMap",
        "java.util.concurrent.ConcurrentNavigableMap", "java.util.concurrent.ConcurrentHashMap",
        "java.util.concurrent.ConcurrentSkipListMap");
    private static final Set<String> VALUES = Set.of("java.lang.String", "java.lang.Boolean", "java.lang.Character",
        "java.lang.Byte", "java.lang.Short", "java.lang.Integer", "java.lang.Long", "java.lang.Float", "java.lang.Double");
    private static final Set<Tree.Kind> REFUSED = Set.of(Tree.Kind.CONTINUE, Tree.Kind.LAMBDA_EXPRESSION,
        Tree.Kind.MEMBER_REFERENCE, Tree.Kind.SYNCHRONIZED, Tree.Kind.TRY, Tree.Kind.LABELED_STATEMENT,
        Tree.Kind.WHILE_LOOP, Tree.Kind.DO_WHILE_LOOP, Tree.Kind.FOR_LOOP, Tree.Kind.ENHANCED_FOR_LOOP);

    /** Whether a call has the name of an attempt. */
    static boolean isNamed(MethodInvocationTree call) {
        return call.getMethodSelect() instanceof MemberSelectTree select && call.getArguments().size() == 2
            && CHANGES.contains(select.getIdentifier().toString()) || isOfKey(call);
    }

    /** Whether a call has the name of an attempt with one key of a map: {@code replace(k, old, v)}, {@code remove(k, old)}. */
    static boolean isOfKey(MethodInvocationTree call) {
        String name = call.getMethodSelect() instanceof MemberSelectTree select ? select.getIdentifier().toString() : "";
        return name.equals("replace") && call.getArguments().size() == 3
            || name.equals("remove") && call.getArguments().size() == 2;
    }

    /** The attempt of a turn, whose look is among the statements before it; null where it isn't one. */
    static Attempt of(ExpressionTree tree, List<StatementTree> before, Services services) {
        if (!(tree instanceof MethodInvocationTree change) || !isNamed(change)) {
            return null;
        }
        boolean ofKey = isOfKey(change);
        Element changed = variable(change, ofKey ? MAPS : CLASSES, services);
        if (changed == null || !(services.attribution().element(Uses.bare(change.getArguments().get(ofKey ? 1 : 0)))
                instanceof VariableElement old)
                || old.getKind() != ElementKind.LOCAL_VARIABLE || ofKey && !isValue(old.asType(), services)) {
            return null;
        }
        for (StatementTree each : before) {
            if (assigned(each, services) == old && value(each) instanceof MethodInvocationTree look
                    && look.getMethodSelect() instanceof MemberSelectTree select
                    && select.getIdentifier().contentEquals("get") && asksTheSame(look, change, services)
                    && changed == variable(look, ofKey ? MAPS : CLASSES, services)) {
                return new Attempt(look, change, old, services);
            }
        }
        return null;
    }

    /** Whether a look asks for what an attempt changes: the only value, or that of the same key. */
    private static boolean asksTheSame(MethodInvocationTree look, MethodInvocationTree change, Services services) {
        if (!isOfKey(change)) {
            return look.getArguments().isEmpty();
        }
        ExpressionTree key = Uses.bare(change.getArguments().get(0));
        Element symbol = services.attribution().element(key);
        return look.getArguments().size() == 1 && (key instanceof LiteralTree literal
            ? Uses.bare(look.getArguments().get(0)) instanceof LiteralTree other && literal.getValue().equals(other.getValue())
            : key instanceof IdentifierTree && symbol instanceof VariableElement variable
                && !variable.getKind().isField() && services.uses().isSettled(variable)
                && services.attribution().element(Uses.bare(look.getArguments().get(0))) == variable);
    }

    /** Whether two equal objects of a type are the same in all that they tell: a map holds them against each other so. */
    private static boolean isValue(TypeMirror type, Services services) {
        return VALUES.contains(type.toString()) || type instanceof DeclaredType declared
            && declared.asElement().getKind() == ElementKind.ENUM;
    }

    /** The variable of a library's class that a call is made on, where its name means the same object each time. */
    static Element variable(MethodInvocationTree call, Services services) {
        return variable(call, CLASSES, services);
    }

    private static Element variable(MethodInvocationTree call, Set<String> classes, Services services) {
        ExpressionTree object = ((MemberSelectTree) call.getMethodSelect()).getExpression();
        Element symbol = services.attribution().element(object);
        boolean own = object instanceof IdentifierTree
            || object instanceof MemberSelectTree select && Uses.isName(select.getExpression(), "this");
        TypeMirror type = services.attribution().type(object);
        if (!own || type == null || !classes.contains(services.attribution().types().erasure(type).toString())
                || !(symbol instanceof VariableElement variable)) {
            return null;
        }
        boolean kept = variable.getKind().isField() ? services.program().find(variable.getEnclosingElement()) != null
            && services.fields().isSettled(variable) : services.uses().isSettled(variable);
        return kept ? variable : null;
    }

    /** The local that a statement gives a value, or null. */
    private static Element assigned(StatementTree statement, Services services) {
        return statement instanceof VariableTree declared ? services.attribution().element(declared)
            : statement instanceof ExpressionStatementTree expression
                && expression.getExpression() instanceof AssignmentTree assignment
            ? services.attribution().element(Uses.bare(assignment.getVariable())) : null;
    }

    private static ExpressionTree value(StatementTree statement) {
        ExpressionTree value = statement instanceof VariableTree declared ? declared.getInitializer()
            : ((AssignmentTree) ((ExpressionStatementTree) statement).getExpression()).getExpression();
        return value == null ? null : Uses.bare(value);
    }

    /** Whether a turn keeps nothing for the next one, so that one that fails is as if it hadn't been. */
    boolean forgets(List<StatementTree> before, List<StatementTree> after) {
        Turn turn = new Turn();
        for (StatementTree each : before) {
            Element given = assigned(each, services);
            if (given != null && given.getKind() == ElementKind.LOCAL_VARIABLE && value(each) != null) {
                turn.scan(value(each), null);
                turn.begin(given);
            } else {
                turn.scan(each, null);
            }
        }
        turn.scan(change, null);
        turn.scan(after, null);
        return turn.holds && services.uses().assignments(old).stream().filter(each -> turn.seen.contains(each.tree())
            || before.contains(each.tree()) || before.stream().anyMatch(one -> one
                instanceof ExpressionStatementTree expression && expression.getExpression() == each.tree())).count() == 1;
    }

    /** Whether a function only computes a value, and keeps nothing, so that it may as well be called again. */
    static boolean onlyComputes(LambdaExpressionTree function, Services services) {
        Turn turn = new Attempt(null, null, null, services).new Turn();
        turn.scan(function.getParameters(), null);
        turn.scan(function.getBody(), null);
        return turn.holds;
    }

    /** Looks through what a turn does. */
    private final class Turn extends TreeScanner<Void, Void> {
        private final Set<Element> known = new HashSet<>();
        private final Set<Element> read = new HashSet<>();
        private final Set<Tree> seen = new HashSet<>();
        private boolean holds = true;

        @Override
        public Void scan(Tree tree, Void nothing) {
            if (tree != null) {
                seen.add(tree);
                holds &= !REFUSED.contains(tree.getKind()) && !(tree instanceof ClassTree);
            }
            return super.scan(tree, nothing);
        }

        /** From here on a local has a value of this turn: what it had before must not have been read. */
        void begin(Element local) {
            holds &= !read.contains(local);
            known.add(local);
        }

        @Override
        public Void visitIdentifier(IdentifierTree tree, Void nothing) {
            Element symbol = services.attribution().element(tree);
            if (!known.contains(symbol)) {
                read.add(symbol);
            }
            return null;
        }

        @Override
        public Void visitVariable(VariableTree tree, Void nothing) {
            known.add(services.attribution().element(tree));
            return super.visitVariable(tree, nothing);
        }

        /** What a turn assigns has to be its own. */
        @Override
        public Void visitAssignment(AssignmentTree tree, Void nothing) {
            change(tree.getVariable());
            return super.visitAssignment(tree, nothing);
        }

        @Override
        public Void visitCompoundAssignment(CompoundAssignmentTree tree, Void nothing) {
            change(tree.getVariable());
            return super.visitCompoundAssignment(tree, nothing);
        }

        @Override
        public Void visitUnary(UnaryTree tree, Void nothing) {
            switch (tree.getKind()) {
                case PREFIX_INCREMENT, PREFIX_DECREMENT, POSTFIX_INCREMENT, POSTFIX_DECREMENT ->
                    change(tree.getExpression());
                default -> { }
            }
            return super.visitUnary(tree, nothing);
        }

        /** What a map takes for the same may be another object, so a turn must not ask which one it is. */
        @Override
        public Void visitBinary(BinaryTree tree, Void nothing) {
            boolean identity = tree.getKind() == Tree.Kind.EQUAL_TO || tree.getKind() == Tree.Kind.NOT_EQUAL_TO;
            holds &= !identity || !isObject(tree.getLeftOperand()) || !isObject(tree.getRightOperand());
            return super.visitBinary(tree, nothing);
        }

        private boolean isObject(ExpressionTree tree) {
            TypeMirror type = services.attribution().type(tree);
            return change != null && isOfKey(change) && (type == null || !type.getKind().isPrimitive()
                && type.getKind() != TypeKind.NULL);
        }

        private void change(ExpressionTree target) {
            holds &= Uses.bare(target) instanceof IdentifierTree name
                && known.contains(services.attribution().element(name));
        }

        @Override
        public Void visitMethodInvocation(MethodInvocationTree tree, Void nothing) {
            VariableElement own = services.computing().own(tree);
            holds &= tree == look || tree == change || services.computing().only(tree) && (own == null || known.contains(own));
            return super.visitMethodInvocation(tree, nothing);
        }

        @Override
        public Void visitNewClass(NewClassTree tree, Void nothing) {
            holds &= services.computing().only(tree);
            return super.visitNewClass(tree, nothing);
        }
    }
}
