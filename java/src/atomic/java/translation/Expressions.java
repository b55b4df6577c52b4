package atomic.java.translation;

import atomic.java.ownership.Uses;
import atomic.java.program.JavaClass;
import atomic.java.skeleton.Part;
import atomic.java.skeleton.Value;
import com.sun.source.tree.ArrayAccessTree;
import com.sun.source.tree.AssignmentTree;
import com.sun.source.tree.BinaryTree;
import com.sun.source.tree.BindingPatternTree;
import com.sun.source.tree.CompoundAssignmentTree;
import com.sun.source.tree.ConditionalExpressionTree;
import com.sun.source.tree.ExpressionTree;
import com.sun.source.tree.IdentifierTree;
import com.sun.source.tree.InstanceOfTree;
import com.sun.source.tree.LambdaExpressionTree;
import com.sun.source.tree.MemberReferenceTree;
import com.sun.source.tree.MemberSelectTree;
import com.sun.source.tree.MethodInvocationTree;
import com.sun.source.tree.NewArrayTree;
import com.sun.source.tree.NewClassTree;
import com.sun.source.tree.ParenthesizedTree;
import com.sun.source.tree.SwitchExpressionTree;
import com.sun.source.tree.Tree;
import com.sun.source.tree.TypeCastTree;
import com.sun.source.tree.UnaryTree;
import com.sun.source.util.SimpleTreeVisitor;
import java.util.List;
import java.util.concurrent.atomic.AtomicReference;
import javax.lang.model.element.Element;
import javax.lang.model.element.ElementKind;
import javax.lang.model.element.VariableElement;
import javax.lang.model.type.TypeMirror;

/** Writes the steps of expressions in the order in which Java evaluates them, and tells which object each gives. */
final class Expressions extends SimpleTreeVisitor<Value, Void> {
    private final Services services;
    private final Body body;
    private final Accesses accesses;

    Expressions(Services services, Body body) {
        super(Value.OPAQUE);
        this.services = services;
        this.body = body;
        accesses = new Accesses(services, body);
    }

    /** Emits the steps of an expression; what it gives. */
    Value value(ExpressionTree tree) {
        Value value = tree == null ? Value.OPAQUE : visit(tree, null);
        return typed(tree, value == null ? Value.OPAQUE : value);
    }

    /** An object of which nothing is known but its class; nodes are the container's. */
    private Value typed(ExpressionTree tree, Value value) {
        TypeMirror type = tree == null ? null : services.attribution().type(tree);
        JavaClass known = type == null ? null : services.program().find(type);
        if (known == null || value instanceof Value.Node) {
            return value;
        }
        JavaClass container = services.nodes().container(known);
        if (container != null) {
            Value holder = body.object(container, services.attribution().start(tree));
            return holder == null || value instanceof Value.Fresh ? value : new Value.Node(holder);
        }
        boolean other = value.type() == null || !value.type().fits(known.shape());
        return !other || value instanceof Value.Owned || value instanceof Value.Given ? value
            : new Value.Opaque(known.shape());
    }

    @Override
    public Value visitParenthesized(ParenthesizedTree tree, Void nothing) {
        return value(tree.getExpression());
    }

    @Override
    public Value visitTypeCast(TypeCastTree tree, Void nothing) {
        return value(tree.getExpression());
    }

    @Override
    public Value visitIdentifier(IdentifierTree tree, Void nothing) {
        long offset = services.attribution().start(tree);
        String name = tree.getName().toString();
        if (name.equals("this") || name.equals("super")) {
            Value me = body.me(offset);
            return me == null ? Value.OPAQUE : me;
        }
        Element symbol = services.attribution().element(tree);
        if (!(symbol instanceof VariableElement variable)) {
            return Value.OPAQUE;
        } else if (symbol.getKind().isField()) {
            return accesses.read(variable, accesses.implicit(variable, offset), tree);
        }
        services.functions().passed(tree, body);
        return new Locals(services, body).read(variable, offset);
    }

    @Override
    public Value visitMemberSelect(MemberSelectTree tree, Void nothing) {
        Element symbol = services.attribution().element(tree);
        String name = tree.getIdentifier().toString();
        if (name.equals("class")) {
            return Value.OPAQUE;
        } else if (name.equals("this")) {
            JavaClass wanted = services.program().find(services.attribution().type(tree));
            Value object = wanted == null ? null : body.object(wanted, services.attribution().start(tree));
            return object == null ? Value.OPAQUE : object;
        } else if (!(symbol instanceof VariableElement)) {
            return Value.OPAQUE;
        } else if (name.equals("length") && symbol.getKind() == ElementKind.FIELD
                && services.attribution().type(tree.getExpression()).getKind()
                    == javax.lang.model.type.TypeKind.ARRAY) {
            value(tree.getExpression());
            return Value.OPAQUE;
        }
        VariableElement field = (VariableElement) symbol;
        Value receiver = accesses.receiver(tree, field, this);
        return accesses.read(field, receiver, tree);
    }

    @Override
    public Value visitUnary(UnaryTree tree, Void nothing) {
        switch (tree.getKind()) {
            case PREFIX_INCREMENT, PREFIX_DECREMENT, POSTFIX_INCREMENT, POSTFIX_DECREMENT ->
                accesses.assign(tree.getExpression(), null, true, this);
            default -> value(tree.getExpression());
        }
        return Value.OPAQUE;
    }

    @Override
    public Value visitBinary(BinaryTree tree, Void nothing) {
        if (new GrowingNumbers(services).leavesOut(tree)) {
            return value(tree.getRightOperand());
        }
        Value left = value(tree.getLeftOperand());
        switch (tree.getKind()) {
            case CONDITIONAL_AND, CONDITIONAL_OR -> perhaps(body.collect(() -> value(tree.getRightOperand())));
            case PLUS -> {
                Value right = value(tree.getRightOperand());
                new LibraryCalls(services, body).joined(tree.getLeftOperand(), left);
                new LibraryCalls(services, body).joined(tree.getRightOperand(), right);
            }
            default -> value(tree.getRightOperand());
        }
        return Value.OPAQUE;
    }

    /** A part that is done or not. What its patterns name is named outside of it, since what follows may speak of that. */
    private void perhaps(Part part) {
        List<Part> all = part instanceof Part.Sequence ? part.parts() : List.of(part);
        all.stream().filter(Part.Local.class::isInstance).forEach(body::emit);
        Part rest = Part.sequence(all.stream().filter(each -> !(each instanceof Part.Local)).toList());
        body.emit(new Part.Either(rest, Part.NOTHING));
    }

    @Override
    public Value visitConditionalExpression(ConditionalExpressionTree tree, Void nothing) {
        value(tree.getCondition());
        Part left = body.collect(() -> value(tree.getTrueExpression()));
        Part right = body.collect(() -> value(tree.getFalseExpression()));
        body.emit(new Part.Either(left, right));
        return Value.OPAQUE;
    }

    @Override
    public Value visitAssignment(AssignmentTree tree, Void nothing) {
        return accesses.assign(tree.getVariable(), tree.getExpression(), false, this);
    }

    @Override
    public Value visitCompoundAssignment(CompoundAssignmentTree tree, Void nothing) {
        accesses.assign(tree.getVariable(), tree.getExpression(), true, this);
        if (tree.getKind() == Tree.Kind.PLUS_ASSIGNMENT) {
            // What the expression does is written by the assignment; here only its object is asked for.
            AtomicReference<Value> added = new AtomicReference<>(Value.OPAQUE);
            body.collect(() -> added.set(value(tree.getExpression())));
            new LibraryCalls(services, body).joined(tree.getExpression(), added.get());
        }
        return Value.OPAQUE;
    }

    @Override
    public Value visitArrayAccess(ArrayAccessTree tree, Void nothing) {
        Value array = value(tree.getExpression());
        value(tree.getIndex());
        new Contents(services, body).element(array, false, tree);
        VariableElement inner = services.ownership().inner(tree);
        return inner == null ? Value.OPAQUE : accesses.confined(inner, services.attribution().start(tree));
    }

    @Override
    public Value visitInstanceOf(InstanceOfTree tree, Void nothing) {
        Value value = value(tree.getExpression());
        if (tree.getPattern() instanceof BindingPatternTree pattern) {
            new Locals(services, body).declare(pattern.getVariable(), value);
        } else {
            new Locals(services, body).declareAll(tree.getPattern());
        }
        return Value.OPAQUE;
    }

    @Override
    public Value visitNewArray(NewArrayTree tree, Void nothing) {
        if (tree.getDimensions() != null) {
            tree.getDimensions().forEach(this::value);
        }
        if (tree.getInitializers() != null) {
            tree.getInitializers().forEach(this::value);
        }
        return new Value.Fresh(null);
    }

    @Override
    public Value visitNewClass(NewClassTree tree, Void nothing) {
        Value made = new Calls(services, body).construct(tree);
        services.exits().give(tree, body);
        return made;
    }

    @Override
    public Value visitMethodInvocation(MethodInvocationTree tree, Void nothing) {
        return new Calls(services, body).call(tree);
    }

    @Override
    public Value visitLambdaExpression(LambdaExpressionTree tree, Void nothing) {
        services.functions().apart(tree, body);
        return Value.OPAQUE;
    }

    @Override
    public Value visitMemberReference(MemberReferenceTree tree, Void nothing) {
        Element qualifier = services.attribution().element(Uses.bare(tree.getQualifierExpression()));
        if (qualifier == null || !qualifier.getKind().isClass() && !qualifier.getKind().isInterface()) {
            value(tree.getQualifierExpression());
        }
        services.functions().apart(tree, body);
        return Value.OPAQUE;
    }

    @Override
    public Value visitSwitchExpression(SwitchExpressionTree tree, Void nothing) {
        value(tree.getExpression());
        new Switches(services, body).cases(tree.getCases());
        return Value.OPAQUE;
    }
}
