package atomic.java.ownership;

import atomic.java.attribution.Attribution;
import atomic.java.places.Notes;
import atomic.java.program.JavaClass;
import atomic.java.program.JavaMethod;
import atomic.java.program.Program;
import com.sun.source.tree.AssignmentTree;
import com.sun.source.tree.CaseTree;
import com.sun.source.tree.ClassTree;
import com.sun.source.tree.ConditionalExpressionTree;
import com.sun.source.tree.EnhancedForLoopTree;
import com.sun.source.tree.ExpressionTree;
import com.sun.source.tree.IdentifierTree;
import com.sun.source.tree.LambdaExpressionTree;
import com.sun.source.tree.MemberReferenceTree;
import com.sun.source.tree.MemberSelectTree;
import com.sun.source.tree.MethodInvocationTree;
import com.sun.source.tree.MethodTree;
import com.sun.source.tree.NewArrayTree;
import com.sun.source.tree.NewClassTree;
import com.sun.source.tree.ReturnTree;
import com.sun.source.tree.SwitchExpressionTree;
import com.sun.source.tree.SynchronizedTree;
import com.sun.source.tree.Tree;
import com.sun.source.tree.TypeCastTree;
import com.sun.source.tree.VariableTree;
import com.sun.source.tree.YieldTree;
import com.sun.source.util.TreeScanner;
import java.util.ArrayList;
import java.util.HashMap;
import java.util.LinkedHashSet;
import java.util.List;
import java.util.Map;
import java.util.Set;
import java.util.stream.Stream;
import javax.lang.model.element.Element;
import javax.lang.model.element.ElementKind;
import javax.lang.model.element.ExecutableElement;
import javax.lang.model.element.Modifier;
import javax.lang.model.element.NestingKind;
import javax.lang.model.element.VariableElement;

/**
 * Which nested classes are those of a container's nodes: made in the container only, never let out, and never reached
 * through another container. What such a node holds belongs to its container.
 */
public final class Nodes {
    private final Program program;
    private final Attribution attribution;
    private final Ownership ownership;
    private final Map<JavaClass, Boolean> known = new HashMap<>();
    private final Map<JavaClass, List<JavaClass>> nested = new HashMap<>();
    private final Mentions mentions;

    public Nodes(Program program, Ownership ownership) {
        this.program = program;
        this.ownership = ownership;
        attribution = program.attribution();
        mentions = new Mentions(program);
        program.classes().stream().filter(each -> each.outer() != null).forEach(each ->
            nested.computeIfAbsent(each.outer(), key -> new ArrayList<>()).add(each));
        program.classes().forEach(this::container);
        ownership.escape().selves().nodesAre(this::container);
    }

    /** The container of a class of nodes, or null. */
    public JavaClass container(JavaClass each) {
        if (each == null || each.outer() == null) {
            return null;
        } else if (!known.containsKey(each)) {
            find(each.outer());
        }
        return known.getOrDefault(each, false) ? each.outer() : null;
    }

    /** Finds the classes of nodes in a container. Each may hold the others, so what one of them lets out counts for all. */
    private void find(JavaClass outer) {
        Set<JavaClass> nodes = new LinkedHashSet<>();
        for (JavaClass each : nested.get(outer)) {
            known.put(each, false);
            if (isPlain(each)) {
                nodes.add(each);
            }
        }
        while (nodes.removeIf(each -> !isNode(each, nodes))) {
            // What is left is looked at again, without those that are none.
        }
        nodes.forEach(each -> {
            known.put(each, true);
            if (!each.symbol().getModifiers().contains(Modifier.PRIVATE)) {
                program.notes().tell(Notes.Kind.ASSUMED, null, attribution.name(each.tree()), "no code outside these files"
                    + " reaches these nodes, which count as parts of " + outer.symbol().getSimpleName());
            }
        });
    }

    /** Whether a class may be one of nodes: it is hidden in another one, and has no class above it, no lock and no statics. */
    private static boolean isPlain(JavaClass each) {
        boolean hidden = each.symbol().getKind() == ElementKind.CLASS && !each.outer().isInterface()
            && each.symbol().getNestingKind() == NestingKind.MEMBER
            && !each.symbol().getModifiers().contains(Modifier.PUBLIC)
            && !each.symbol().getModifiers().contains(Modifier.PROTECTED);
        return hidden && each.symbol().getSuperclass().toString().equals("java.lang.Object")
            && each.symbol().getInterfaces().isEmpty() && each.methods().stream().noneMatch(method ->
                method.symbol().getModifiers().contains(Modifier.SYNCHRONIZED) || method.isStatic())
            && each.symbol().getEnclosedElements().stream().noneMatch(Nodes::isLock);
    }

    /** Whether a member is a lock with methods: objects with locks of their own belong to these. */
    private static boolean isLock(Element member) {
        String type = member.getKind() == ElementKind.FIELD ? member.asType().toString() : "";
        return type.startsWith("java.util.concurrent.locks.") && !type.endsWith(".Condition");
    }

    /** Whether objects of a class stay in the container, where those of these classes do. */
    private boolean isNode(JavaClass each, Set<JavaClass> nodes) {
        NodeTypes types = new NodeTypes(attribution, each);
        boolean linked = Stream.concat(Stream.of(each.outer()), nodes.stream().filter(other -> other != each)).anyMatch(holder ->
            holder.symbol().getEnclosedElements().stream().anyMatch(field ->
                field.getKind() == ElementKind.FIELD && types.mentions(field.asType())));
        Test test = new Test(types, nodes);
        if (linked) {
            mentions.units(each.symbol()).forEach(unit -> test.scan(unit, null));
        }
        return linked && test.holds;
    }

    /** Looks at all that is done with nodes. */
    private final class Test extends TreeScanner<Void, Void> {
        private final JavaClass node;
        private final JavaClass outer;
        private final Set<JavaClass> nodes;
        private final NodeTypes types;
        private final NodeCalls calls;
        private JavaClass current;
        private boolean inStatic;
        private boolean holds = true;

        Test(NodeTypes types, Set<JavaClass> nodes) {
            node = types.node();
            outer = node.outer();
            this.nodes = nodes;
            this.types = types;
            calls = new NodeCalls(program, ownership, types);
        }

        private void need(boolean condition) {
            holds &= condition;
        }

        @Override
        public Void visitClass(ClassTree tree, Void nothing) {
            JavaClass before = current;
            current = program.find(attribution.element(tree));
            super.visitClass(tree, nothing);
            current = before;
            return null;
        }

        @Override
        public Void visitMethod(MethodTree tree, Void nothing) {
            boolean before = inStatic;
            inStatic = tree.getModifiers().getFlags().contains(Modifier.STATIC);
            super.visitMethod(tree, nothing);
            inStatic = before;
            return null;
        }

        @Override
        public Void visitVariable(VariableTree tree, Void nothing) {
            Element symbol = attribution.element(tree);
            boolean held = symbol instanceof VariableElement field && field.getKind() == ElementKind.FIELD
                && types.mentions(field.asType()) && !ownership.comparators().isFollowed(field);
            if (held) {
                need(isInside(current) && !symbol.getModifiers().contains(Modifier.STATIC)
                    && !symbol.getModifiers().contains(Modifier.PUBLIC));
            }
            if (tree.getInitializer() != null && isNodes(tree.getInitializer())) {
                need(symbol != null && types.mentions(symbol.asType()));
            }
            return super.visitVariable(tree, nothing);
        }

        /** Whether code of a class has one container, and no nodes of another one. */
        private boolean isInside(JavaClass each) {
            return each != null && (each == outer || nodes.contains(each) || hasContainer(each));
        }

        private boolean hasContainer(JavaClass each) {
            return each.hasOuterObject() && (each.outer() == outer || hasContainer(each.outer()));
        }

        private boolean isNodes(ExpressionTree tree) {
            return types.isNodes(tree);
        }

        @Override
        public Void scan(Tree tree, Void nothing) {
            if (tree == null || mentions.isSilent(tree, node.symbol())) {
                return null;
            }
            if (tree instanceof ExpressionTree expression && isNodes(expression)
                    && attribution.element(tree) != node.symbol()) {
                need(!inStatic && isInside(current));
            }
            return holds ? super.scan(tree, nothing) : null;
        }

        @Override
        public Void visitMemberSelect(MemberSelectTree tree, Void nothing) {
            Element symbol = attribution.element(tree);
            boolean leads = symbol instanceof VariableElement field && types.mentions(field.asType())
                || symbol instanceof ExecutableElement method && types.inSignature(method);
            JavaClass home = leads ? program.find(symbol.getEnclosingElement()) : null;
            if (home != null && !nodes.contains(home)) {
                need(isSelf(tree.getExpression()));
            }
            return super.visitMemberSelect(tree, nothing);
        }

        private boolean isSelf(ExpressionTree tree) {
            return tree instanceof IdentifierTree name && name.getName().contentEquals("this")
                || tree instanceof MemberSelectTree select && select.getIdentifier().contentEquals("this");
        }

        @Override
        public Void visitMethodInvocation(MethodInvocationTree tree, Void nothing) {
            Element symbol = attribution.element(tree);
            JavaMethod method = program.method(symbol);
            need(method == null ? calls.isHarmless(tree) : takesNodes(method, tree.getArguments()));
            need(!(symbol != null && symbol.getSimpleName().contentEquals("clone") && current == outer
                && tree.getMethodSelect().toString().startsWith("super.")));
            return super.visitMethodInvocation(tree, nothing);
        }

        /** What gives a node has to say so by its type. */
        @Override
        public Void visitEnhancedForLoop(EnhancedForLoopTree tree, Void nothing) {
            Element variable = attribution.element(tree.getVariable());
            need(!isNodes(tree.getExpression()) || variable != null && types.mentions(variable.asType()));
            return super.visitEnhancedForLoop(tree, nothing);
        }

        @Override
        public Void visitTypeCast(TypeCastTree tree, Void nothing) {
            need(!isNodes(tree.getExpression()) || isNodes(tree));
            return super.visitTypeCast(tree, nothing);
        }

        @Override
        public Void visitConditionalExpression(ConditionalExpressionTree tree, Void nothing) {
            need(!isNodes(tree.getTrueExpression()) && !isNodes(tree.getFalseExpression()) || isNodes(tree));
            return super.visitConditionalExpression(tree, nothing);
        }

        /** Whether a method of the container, or of what belongs to one, says of each node that it is given that it is one. */
        private boolean takesNodes(JavaMethod method, List<? extends ExpressionTree> arguments) {
            List<? extends VariableElement> parameters = method.symbol().getParameters();
            boolean own = isInside(method.owner());
            for (int k = 0; k < arguments.size(); k++) {
                boolean given = isNodes(arguments.get(k)) && !(Uses.bare(arguments.get(k)) instanceof LambdaExpressionTree);
                if (given && !(own && k < parameters.size() && types.mentions(parameters.get(k).asType()))) {
                    return false;
                }
            }
            return true;
        }

        @Override
        public Void visitNewClass(NewClassTree tree, Void nothing) {
            JavaClass made = program.find(attribution.type(tree));
            JavaMethod constructor = program.method(attribution.element(tree));
            boolean given = tree.getArguments().stream().anyMatch(this::isNodes);
            boolean here = tree.getEnclosingExpression() == null || isSelf(tree.getEnclosingExpression());
            need(!given || (made == null ? calls.isHarmless(tree)
                : here && constructor != null && takesNodes(constructor, tree.getArguments())));
            need(made == null || made == node || !isNodes(tree));
            need(made != node || tree.getClassBody() == null);
            return super.visitNewClass(tree, nothing);
        }

        @Override
        public Void visitNewArray(NewArrayTree tree, Void nothing) {
            boolean given = tree.getInitializers() != null && tree.getInitializers().stream().anyMatch(this::isNodes);
            boolean said = isNodes(tree) || attribution.parent(tree) instanceof VariableTree variable
                && attribution.element(variable) != null && types.mentions(attribution.element(variable).asType());
            need(!given || said);
            return super.visitNewArray(tree, nothing);
        }

        @Override
        public Void visitYield(YieldTree tree, Void nothing) {
            SwitchExpressionTree around = calls.around(tree, SwitchExpressionTree.class);
            need(!isNodes(tree.getValue()) || around != null && isNodes(around));
            return super.visitYield(tree, nothing);
        }

        @Override
        public Void visitCase(CaseTree tree, Void nothing) {
            need(!(tree.getBody() instanceof ExpressionTree value && isNodes(value))
                || attribution.parent(tree) instanceof SwitchExpressionTree around && isNodes(around));
            return super.visitCase(tree, nothing);
        }

        @Override
        public Void visitAssignment(AssignmentTree tree, Void nothing) {
            need(!isNodes(tree.getExpression()) || isNodes(tree.getVariable()));
            return super.visitAssignment(tree, nothing);
        }

        @Override
        public Void visitReturn(ReturnTree tree, Void nothing) {
            if (tree.getExpression() != null && isNodes(tree.getExpression())) {
                Tree around = program.around(tree);
                if (around instanceof LambdaExpressionTree lambda) {
                    need(calls.mayGive(lambda));
                    return super.visitReturn(tree, nothing);
                }
                JavaMethod method = around instanceof MethodTree ? program.method(attribution.element(around)) : null;
                boolean hidden = node.symbol().getModifiers().contains(Modifier.PRIVATE);
                need(method != null && types.mentions(method.symbol().getReturnType())
                    && !method.symbol().getModifiers().contains(Modifier.PUBLIC)
                    && (hidden || method.isPrivate() || isHidden(method.owner()) || isCalled(method)));
            }
            return super.visitReturn(tree, nothing);
        }

        private boolean isHidden(JavaClass each) {
            return each == node || each != null && (each.symbol().getModifiers().contains(Modifier.PRIVATE)
                || isHidden(each.outer()));
        }

        /** A method that gives a node, and that nobody here calls, is there for others. */
        private boolean isCalled(JavaMethod method) {
            return !ownership.sites().of(method.symbol()).isEmpty();
        }

        /** A function may get nodes, which only the container has to give, and give one where that is said. */
        @Override
        public Void visitLambdaExpression(LambdaExpressionTree tree, Void nothing) {
            need(!(tree.getBody() instanceof ExpressionTree value && isNodes(value)) || calls.mayGive(tree));
            return super.visitLambdaExpression(tree, nothing);
        }

        @Override
        public Void visitMemberReference(MemberReferenceTree tree, Void nothing) {
            if (attribution.element(tree) instanceof ExecutableElement symbol) {
                boolean makes = symbol.getKind() == ElementKind.CONSTRUCTOR && symbol.getEnclosingElement() == node.symbol();
                need(!makes && !types.mentions(symbol.getReturnType()) || calls.mayGive(tree));
                JavaMethod method = program.method(symbol);
                need(method == null || nodes.contains(method.owner()) || calls.isOwn(tree, method));
            }
            return super.visitMemberReference(tree, nothing);
        }

        @Override
        public Void visitSynchronized(SynchronizedTree tree, Void nothing) {
            need(!isNodes(Uses.bare(tree.getExpression())));
            return super.visitSynchronized(tree, nothing);
        }
    }
}
