package atomic.java.ownership;

import atomic.java.attribution.Attribution;
import atomic.java.program.Families;
import atomic.java.program.JavaMethod;
import atomic.java.program.Program;
import com.sun.source.tree.ArrayAccessTree;
import com.sun.source.tree.AssignmentTree;
import com.sun.source.tree.CaseTree;
import com.sun.source.tree.ClassTree;
import com.sun.source.tree.CompoundAssignmentTree;
import com.sun.source.tree.ConditionalExpressionTree;
import com.sun.source.tree.EnhancedForLoopTree;
import com.sun.source.tree.ExpressionTree;
import com.sun.source.tree.InstanceOfTree;
import com.sun.source.tree.LambdaExpressionTree;
import com.sun.source.tree.MemberSelectTree;
import com.sun.source.tree.MethodInvocationTree;
import com.sun.source.tree.NewClassTree;
import com.sun.source.tree.ReturnTree;
import com.sun.source.tree.SwitchExpressionTree;
import com.sun.source.tree.Tree;
import com.sun.source.tree.UnaryTree;
import com.sun.source.tree.VariableTree;
import com.sun.source.tree.YieldTree;
import java.util.ArrayDeque;
import java.util.Deque;
import java.util.HashSet;
import java.util.LinkedHashSet;
import java.util.List;
import java.util.Set;
import java.util.function.Predicate;
import javax.lang.model.element.Element;
import javax.lang.model.element.ElementKind;
import javax.lang.model.element.VariableElement;
import javax.lang.model.type.TypeMirror;

/**
 * The ways that a thing within a field's object goes, such as a list in a map of lists: through locals, parameters, results of
 * helpers, functions, and objects that hold it. It gets out where a method that is asked to be atomic gives it back, where it
 * goes into what a caller brought, where a function or a thread keeps it, and where it is thrown. What is taken out of its
 * collection for good, or moves within fields, doesn't get out.
 */
final class InnerWays {
    /** How many steps of one way are followed; behind that nothing more is seen. */
    private static final int MOST_STEPS = 20_000;

    private final Program program;
    private final Attribution attribution;
    private final Ownership ownership;
    private final InnerTypes types;
    private final Predicate<JavaMethod> asked;
    private final TypeMirror thing;
    private final InnerCalls calls;
    private final Deque<Step> waiting = new ArrayDeque<>();
    private final Set<Step> seen = new HashSet<>();
    private final Set<Object> names = new HashSet<>();
    private final Set<Tree> outs = new LinkedHashSet<>();
    private final Found found = new Found();
    private boolean changes;
    private boolean own;
    private VariableElement home;

    /** An expression gives the thing, or what shows it ({@code itself}), or something that holds it; {@code own} as below. */
    private record Step(Tree tree, boolean itself, boolean own) { }

    /** A variable that has such an object. */
    private record Name(Element variable, boolean itself, boolean own) { }

    InnerWays(Program program, Ownership ownership, TypeMirror thing, Predicate<JavaMethod> asked) {
        this.program = program;
        this.ownership = ownership;
        this.thing = thing;
        this.asked = asked;
        attribution = program.attribution();
        types = new InnerTypes(program);
        calls = new InnerCalls(program, ownership, this);
    }

    /** Follows all ways from the names of a field. */
    InnerWays from(VariableElement field) {
        boolean itself = types.mayBe(field.asType(), thing);
        own = true;
        ownership.uses().of(field).stream().filter(each -> !ownership.uses().isTarget(each)).forEach(each -> go(each, itself));
        return walk();
    }

    /** Follows all ways of the thing in a field, which these expressions give. */
    InnerWays within(VariableElement field, List<Tree> seeds) {
        home = field;
        own = true;
        seeds.forEach(each -> go(each, true));
        return walk();
    }

    private InnerWays walk() {
        while (!waiting.isEmpty() && seen.size() < MOST_STEPS) {
            Step next = waiting.remove();
            own = next.own();
            found.tree(next.tree(), next.itself(), own);
            step(next.tree(), next.itself());
        }
        if (!waiting.isEmpty()) {
            found.lose();
        }
        return this;
    }

    /** Whether a parameter of a constructor is for the field itself: what an object hands on to the next one is followed there. */
    boolean isHome(Element parameter) {
        return home != null && parameter.getSimpleName().equals(home.getSimpleName())
            && parameter.getEnclosingElement().getEnclosingElement().equals(home.getEnclosingElement());
    }

    /** Under which names the thing is known. */
    Found found() {
        return found;
    }

    /** Where the thing gets out. */
    Set<Tree> outs() {
        return outs;
    }

    /** Whether some code changes the thing. */
    boolean isChanged() {
        return changes;
    }

    void change() {
        changes = true;
    }

    /** The thing gets out here. */
    void out(Tree at) {
        outs.add(at);
    }

    /** An expression gives such an object. */
    void go(Tree tree, boolean itself) {
        Step step = new Step(tree, itself, own);
        if (seen.add(step)) {
            waiting.add(step);
        }
    }

    /** An expression gives what its type says, if it may be such an object. */
    void byType(Tree tree, boolean before) {
        TypeMirror type = attribution.type(tree);
        if (types.isOpen(type)) {
            go(tree, before);
        } else if (types.mayBe(type, thing)) {
            go(tree, true);
        } else if (types.mayBeOrHold(type, thing)) {
            go(tree, false);
        }
    }

    /** What a call gives, where the function that it calls gives an object of this type; a new record holds what it is made of. */
    void byTypeOf(TypeMirror type, Tree call, boolean holds) {
        if (holds || types.mayBeOrHold(type, thing)) {
            byType(call, false);
        }
    }

    private void step(Tree tree, boolean itself) {
        Tree parent = attribution.parent(tree);
        if (parent instanceof MemberSelectTree select) {
            selected(select, itself);
        } else if (parent instanceof MethodInvocationTree call) {
            calls.argument(call, tree, itself);
        } else if (parent instanceof NewClassTree made) {
            calls.made(made, tree, itself);
        } else if (parent instanceof AssignmentTree assignment) {
            if (assignment.getExpression() == tree) {
                into(assignment.getVariable(), itself);
                go(assignment, itself);
            }
        } else if (parent instanceof VariableTree variable) {
            follow(attribution.element(variable), itself);
        } else if (parent instanceof ReturnTree) {
            given(parent, itself);
        } else if (parent instanceof LambdaExpressionTree lambda) {
            calls.gives(lambda, itself);
        } else if (parent instanceof ArrayAccessTree access) {
            element(access, tree, itself);
        } else if (parent instanceof EnhancedForLoopTree loop) {
            walked(attribution.element(loop.getVariable()), itself);
        } else if (parent instanceof InstanceOfTree test && test.getPattern() instanceof com.sun.source.tree.BindingPatternTree bound) {
            follow(attribution.element(bound.getVariable()), itself);
        } else {
            otherwise(parent, tree, itself);
        }
    }

    /** What a loop walks to: a thing, or what holds one; and an entry of a map that is the thing itself is a part of that. */
    private void walked(Element variable, boolean itself) {
        if (!itself) {
            followByType(variable);
        } else if (variable != null && new Results(attribution).mentionsEntry(variable.asType())) {
            follow(variable, true);
        }
    }

    private void otherwise(Tree parent, Tree tree, boolean itself) {
        if (parent instanceof ConditionalExpressionTree either) {
            if (either.getCondition() != tree) {
                go(parent, itself);
            }
        } else if (parent instanceof YieldTree || parent instanceof CaseTree) {
            Tree around = parent;
            while (around != null && !(around instanceof SwitchExpressionTree)) {
                around = attribution.parent(around);
            }
            go(around, itself);
        } else {
            switch (parent.getKind()) {
                case PARENTHESIZED -> {
                    if (attribution.parent(parent).getKind() != Tree.Kind.SYNCHRONIZED) {
                        go(parent, itself);
                    }
                }
                case TYPE_CAST -> go(parent, itself);
                case NEW_ARRAY, MEMBER_REFERENCE -> go(parent, false);
                case THROW -> out(tree);
                default -> { }
            }
        }
    }

    private void selected(MemberSelectTree select, boolean itself) {
        if (attribution.parent(select) instanceof MethodInvocationTree call && call.getMethodSelect() == select) {
            calls.receiver(call, select, itself);
        } else if (!itself && !ownership.uses().isTarget(select)) {
            byType(select, false);
        }
    }

    private void element(ArrayAccessTree access, Tree tree, boolean itself) {
        if (access.getExpression() != tree) {
            return;
        }
        Tree parent = attribution.parent(access);
        boolean target = parent instanceof AssignmentTree assignment && assignment.getVariable() == access
            || parent instanceof CompoundAssignmentTree || parent instanceof UnaryTree;
        if (itself) {
            changes |= target;
        } else if (!target) {
            byType(access, false);
        }
    }

    /** What a variable is given that may be such an object by its type. */
    void followByType(Element variable) {
        if (variable != null && types.mayBe(variable.asType(), thing)) {
            follow(variable, true);
        } else if (variable != null && types.mayBeOrHold(variable.asType(), thing)) {
            follow(variable, false);
        }
    }

    /** A local, a parameter or a pattern has such an object. */
    void follow(Element variable, boolean itself) {
        if (variable == null || variable.getKind().isField() || !names.add(new Name(variable, itself, own))) {
            return;
        }
        found.name(variable, itself, own);
        Tree home = program.around(ownership.uses().declaration(variable));
        for (Tree use : ownership.uses().of(variable)) {
            if (!ownership.uses().isTarget(use)) {
                captured(use, home);
                go(use, itself);
            }
        }
    }

    /** A function, or an object of an own class, that uses a name from around it holds that object. */
    private void captured(Tree use, Tree home) {
        Tree at = program.around(use);
        while (at instanceof LambdaExpressionTree && at != home && ownership.escape().isCalledAtOnce(at)) {
            at = program.around(at);
        }
        if (at == home || at == null) {
            return;
        }
        found.lose();
        if (at instanceof LambdaExpressionTree) {
            go(at, false);
            return;
        }
        Tree each = at;
        while (each != null && !(each instanceof ClassTree)) {
            each = attribution.parent(each);
        }
        if (each != null && attribution.parent(each) instanceof NewClassTree made) {
            go(made, false);
        }
    }

    /** Something gets such an object: what a caller brought lets it out, and an object of the method holds it. */
    void into(ExpressionTree target, boolean itself) {
        ExpressionTree bare = Uses.bare(target);
        Element symbol = attribution.element(bare);
        if (bare instanceof ArrayAccessTree access) {
            sink(access.getExpression());
        } else if (symbol instanceof VariableElement && symbol.getKind().isField()) {
            found.lose();
            if (bare instanceof MemberSelectTree select && !ownership.uses().isThis(select.getExpression())
                    && !Families.isStatic((VariableElement) symbol)) {
                sink(select.getExpression());
            }
        } else {
            follow(symbol, itself);
        }
    }

    /** An object gets such a one within it. */
    void sink(Tree target) {
        Tree bare = target instanceof ExpressionTree expression ? Uses.bare(expression) : target;
        Element symbol = attribution.element(bare);
        if (bare instanceof ArrayAccessTree access) {
            sink(access.getExpression());
        } else if (bare instanceof MethodInvocationTree call) {
            if (program.method(symbol) == null && call.getMethodSelect() instanceof MemberSelectTree select) {
                sink(select.getExpression());
            }
        } else if (!(symbol instanceof VariableElement variable)) {
            found.lose();
            go(bare, false);
        } else if (variable.getKind() == ElementKind.PARAMETER) {
            found.lose();
            follow(variable, false);
            brought(variable, bare);
        } else {
            found.put(variable);
            follow(variable, false);
        }
    }

    /** What a parameter of a method holds belongs to its callers; one of a helper to those that call it here. */
    private void brought(VariableElement parameter, Tree at) {
        JavaMethod method = program.method(parameter.getEnclosingElement());
        int index = method == null ? -1 : method.symbol().getParameters().indexOf(parameter);
        if (index < 0 || asked.test(method)) {
            out(at);
        }
        for (Tree site : index < 0 ? List.<Tree>of() : ownership.sites().of(method.symbol())) {
            var arguments = site instanceof MethodInvocationTree call ? call.getArguments() : ((NewClassTree) site).getArguments();
            if (index < arguments.size() && names.add(site)) {
                sink(arguments.get(index));
            }
        }
    }

    /** What a method gives goes to its caller, and what a function gives to whatever called that. */
    private void given(Tree back, boolean itself) {
        Tree around = program.around(back);
        if (around instanceof LambdaExpressionTree lambda) {
            calls.gives(lambda, itself);
            return;
        }
        JavaMethod method = program.method(attribution.element(around));
        if (method == null) {
            return;
        } else if (asked.test(method)) {
            out(back);
        }
        found.method(method, itself);
        if (!asked.test(method) && !Confinement.isHidden(method)) {
            found.lose();
        }
        boolean before = own;
        for (Tree site : ownership.sites().of(method.symbol())) {
            own = before && !method.isStatic() && site instanceof MethodInvocationTree call && Confinement.isOwn(call.getMethodSelect());
            if (!own) {
                found.lose();
            }
            byType(site, itself);
        }
        own = before;
    }

    /** A parameter of a method at hand has such an object, which the method only knows for one of its caller. */
    void lend(Element parameter, boolean itself) {
        boolean before = own;
        own = false;
        follow(parameter, itself);
        own = before;
    }
}
