package atomic.java.ownership;

import atomic.java.attribution.Attribution;
import atomic.java.library.Choice;
import atomic.java.library.Library;
import atomic.java.program.JavaMethod;
import atomic.java.program.Program;
import com.sun.source.tree.ArrayAccessTree;
import com.sun.source.tree.AssignmentTree;
import com.sun.source.tree.BinaryTree;
import com.sun.source.tree.ConditionalExpressionTree;
import com.sun.source.tree.EnhancedForLoopTree;
import com.sun.source.tree.ExpressionTree;
import com.sun.source.tree.InstanceOfTree;
import com.sun.source.tree.LambdaExpressionTree;
import com.sun.source.tree.MemberReferenceTree;
import com.sun.source.tree.MemberSelectTree;
import com.sun.source.tree.MethodInvocationTree;
import com.sun.source.tree.NewClassTree;
import com.sun.source.tree.ReturnTree;
import com.sun.source.tree.Tree;
import com.sun.source.tree.VariableTree;
import java.util.HashMap;
import java.util.HashSet;
import java.util.List;
import java.util.Map;
import java.util.Set;
import java.util.function.Predicate;
import javax.lang.model.element.Element;
import javax.lang.model.element.ElementKind;
import javax.lang.model.element.ExecutableElement;
import javax.lang.model.element.VariableElement;
import javax.lang.model.type.ArrayType;
import javax.lang.model.type.DeclaredType;
import javax.lang.model.type.TypeMirror;

/** Whether the object that an expression gives may be reached by others through what is done with it. */
public final class Escape {

    /** How many names of an object are followed. */
    private static final int MOST_NAMES = 6;

    /** How many uses of second names are looked at for one: behind that the object may be known to others. */
    private static final int MOST_USES = 5_000;

    /** What only makes texts, and keeps nothing that it is given. No class is below these. */
    private static final Set<String> TEXTS = Set.of("java.lang.StringBuilder", "java.lang.StringBuffer",
        "java.util.StringJoiner");

    /** The object doesn't get away. */
    public static final long NEVER = Long.MAX_VALUE;

    private final Program program;
    private final Attribution attribution;
    private final Uses uses;
    private final Selves selves;
    private final Results results;
    private final Implied implied;
    private final AtOnce atOnce;
    private final Views views;
    /** The one for which an object gets away too where it is given back; this one itself where that counts here. */
    private final Escape whole;
    /** The one for which an object that is only given back stays. */
    private final Escape within;
    private final Set<Element> visited = new HashSet<>();
    private final Map<Element, Long> throughs = new HashMap<>();
    private Predicate<Tree> isHandedOn = tree -> false;
    private int looks;

    public Escape(Program program, Uses uses) {
        this.program = program;
        this.uses = uses;
        attribution = program.attribution();
        selves = new Selves(program, uses, this);
        results = new Results(attribution);
        implied = new Implied(program, this);
        atOnce = new AtOnce(program, this);
        views = new Views(program, uses, this);
        whole = this;
        within = new Escape(this);
    }

    private Escape(Escape whole) {
        this.whole = whole;
        program = whole.program;
        uses = whole.uses;
        attribution = whole.attribution;
        selves = whole.selves;
        results = whole.results;
        implied = whole.implied;
        atOnce = whole.atOnce;
        views = whole.views;
        within = this;
    }

    /** Which functions are given to a method at hand that only calls them, and which locals take the object of a field. */
    void knows(Predicate<Tree> functions, Predicate<Element> taken) {
        isHandedOn = functions;
        within.isHandedOn = functions;
        views.taken(taken);
    }

    /** What was found so far may rest on a guess of what methods do, and is to be found anew. */
    void forget() {
        throughs.clear();
        within.throughs.clear();
    }

    /** From which offset on the object may be known to others than the method's caller, to whom it may be given back. */
    long within(Tree use) {
        return within.from(use);
    }

    /** Whether an object gets away to its method's caller alone. */
    public boolean returns(Tree use) {
        return from(use) != NEVER && within(use) == NEVER;
    }

    /** Where {@code this} gets away in a method. */
    public Selves selves() {
        return selves;
    }

    /** From which offset on the object of this expression may be known to others. */
    public long from(Tree use) {
        Tree parent = attribution.parent(use);
        if (parent instanceof MemberSelectTree select) {
            return asReceiver(select);
        } else if (new Borrowers(program, uses, this::keeps).borrow(use)) {
            return NEVER;
        } else if (parent instanceof MethodInvocationTree call) {
            return asArgument(call, use);
        } else if (parent instanceof NewClassTree made) {
            return !isBorrowed(made) ? attribution.start(made) : showsEntries(use) ? from(made) : NEVER;
        } else if (parent instanceof AssignmentTree assignment) {
            boolean given = attribution.parent(assignment).getKind() != Tree.Kind.EXPRESSION_STATEMENT;
            long further = given ? from(assignment) : NEVER;
            return assignment.getExpression() == use ? Math.min(further, into(assignment.getVariable(), assignment))
                : further;
        } else if (parent instanceof VariableTree variable) {
            return isOwnField(attribution.element(variable), use) ? NEVER
                : views.isLost(use, attribution.element(variable)) ? attribution.start(use) : through(attribution.element(variable));
        } else if (parent instanceof ReturnTree) {
            return this == whole ? attribution.end(parent) : NEVER;
        } else if (parent instanceof MemberReferenceTree reference) {
            return asReference(reference);
        } else if (parent instanceof ConditionalExpressionTree condition) {
            return condition.getCondition() == use ? NEVER : views.are(use) ? attribution.start(use) : from(parent);
        } else if (parent instanceof EnhancedForLoopTree loop && results.mentionsEntry(
                attribution.element(loop.getVariable()).asType())) {
            return through(attribution.element(loop.getVariable()));
        } else if (parent instanceof EnhancedForLoopTree || parent instanceof BinaryTree) {
            return implied.leaks(use, parent) ? attribution.start(use) : NEVER;
        } else if (parent instanceof ArrayAccessTree || parent instanceof InstanceOfTree instance && instance.getPattern() == null) {
            return NEVER;
        }
        return switch (parent.getKind()) {
            case PARENTHESIZED -> attribution.parent(parent).getKind() == Tree.Kind.SYNCHRONIZED ? NEVER : from(parent);
            case TYPE_CAST -> from(parent);
            case EXPRESSION_STATEMENT -> NEVER;
            case LAMBDA_EXPRESSION -> given(parent);
            default -> attribution.start(use);
        };
    }

    /** A method of the object that a name stands for: who calls it gets what it gives, such as a view of the object. */
    private long asReference(MemberReferenceTree reference) {
        boolean called = isCalledAtOnce(reference) || isHandedOn.test(reference);
        if (!called || !(attribution.element(reference) instanceof ExecutableElement symbol) || Views.givesItself(symbol)) {
            return attribution.start(reference);
        }
        JavaMethod method = program.method(symbol);
        if (method != null) {
            return selves.leaks(method) || selves.gives(method) ? attribution.start(reference) : NEVER;
        }
        Choice choice = program.library().choose(attribution.type(reference.getQualifierExpression()), Library.key(symbol));
        boolean shows = choice.kind() == Choice.Kind.VIEW || choice.kind() == Choice.Kind.PIPE
            || results.mentionsEntry(attribution.type(reference));
        return shows ? given(reference) : choice.kind() == Choice.Kind.UNKNOWN ? unknown(reference) : NEVER;
    }

    /** What a function gives goes to whoever calls it; by way of a helper that may be the method's caller alone. */
    private long given(Tree function) {
        return this == within && isHandedOn.test(function) && new GivenBack(program, uses).isGiven(function)
            ? NEVER : attribution.start(function);
    }

    private long asReceiver(MemberSelectTree select) {
        if (!(attribution.parent(select) instanceof MethodInvocationTree call) || call.getMethodSelect() != select) {
            return uses.mayHoldItself(attribution.element(select)) && !uses.isTarget(select) ? from(select) : NEVER;
        }
        if (!(attribution.element(select) instanceof ExecutableElement symbol)) {
            return attribution.start(call);
        }
        JavaMethod method = program.method(symbol);
        if (method != null) {
            return selves.leaks(method) ? attribution.start(call) : selves.gives(method) ? from(call) : NEVER;
        }
        if (Views.givesItself(symbol)) {
            return from(call);
        }
        Choice choice = choose(select, symbol);
        if (program.find(attribution.type(select.getExpression())) != null && mayKeep(choice)) {
            return attribution.start(call);
        }
        return Math.min(asEntry(call), switch (choice.kind()) {
            case VIEW, PIPE -> from(call);
            case UNKNOWN -> unknown(call);
            default -> results.isEntry(call) || showsEntries(select.getExpression())
                && attribution.type(call) instanceof ArrayType ? from(call) : NEVER;
        });
    }

    /** Whether an object has a map's entries, or is one: a copy of it has the same entries, which are still parts of the map. */
    private boolean showsEntries(Tree tree) {
        return results.mentionsEntry(attribution.type(tree));
    }

    /** A function of a map's entries, which are parts of the map, may let one get away. */
    private long asEntry(MethodInvocationTree call) {
        long first = NEVER;
        for (ExpressionTree argument : call.getArguments()) {
            ExpressionTree bare = Uses.bare(argument);
            if (bare instanceof LambdaExpressionTree lambda) {
                for (VariableTree each : lambda.getParameters()) {
                    Element symbol = attribution.element(each);
                    first = symbol == null || !results.mentionsEntry(symbol.asType()) ? first
                        : Math.min(first, isCalledAtOnce(lambda) ? through(symbol) : attribution.start(lambda));
                }
            } else if (bare instanceof MemberReferenceTree && results.mentionsEntry(attribution.type(bare))
                    && !attribution.element(bare).getEnclosingElement().toString().equals("java.util.Map.Entry")) {
                first = Math.min(first, attribution.start(bare));
            }
        }
        return first;
    }

    private long asArgument(MethodInvocationTree call, Tree use) {
        if (!(attribution.element(call) instanceof ExecutableElement symbol)) {
            return attribution.start(call);
        } else if (program.method(symbol) != null) {
            return whole.isBorrowed(symbol, call.getArguments().indexOf(use)) ? NEVER : attribution.start(call);
        }
        Choice choice = choose(call.getMethodSelect(), symbol);
        boolean texts = TEXTS.contains(symbol.getEnclosingElement().toString());
        boolean asks = texts || choice.kind() == Choice.Kind.ASSUMED || choice.kind() == Choice.Kind.READS;
        if (asks && implied.leaks(use)) {
            return attribution.start(call);
        }
        boolean copies = symbol.getSimpleName().toString().endsWith("All") && choice.kind() != Choice.Kind.UNKNOWN;
        if (copies || texts) {
            return copies && showsEntries(use) ? attribution.start(call) : NEVER;
        }
        long copied = showsEntries(use) && !results.isValue(call) ? from(call) : NEVER;
        return Math.min(copied, switch (choice.kind()) {
            case VIEW -> from(call);
            case PURE, ASSUMED, READS, RUN -> choice.keeps() ? attribution.start(call) : given(call, use);
            case UNKNOWN -> choice.keeps() ? unknown(call) : NEVER;
            default -> attribution.start(call);
        });
    }

    /** What a call that keeps nothing was given may come back as what it gives, or within that. */
    private long given(MethodInvocationTree call, Tree use) {
        if (results.keepsNothing(call)) {
            return NEVER;
        } else if (results.mayBe(call, use)) {
            return from(call);
        }
        return !results.mayHold(call, use) || results.isDropped(call) ? NEVER : attribution.start(call);
    }

    /** A call of which nothing is known may keep an object, and may not where only what is certain counts. */
    private long unknown(Tree call) {
        return program.sure() ? NEVER : attribution.start(call);
    }

    /** Whether a library's method that an object is given to, or called on, keeps it for others. */
    boolean mayKeep(Choice choice) {
        return choice.keeps() && !(program.sure() && choice.kind() == Choice.Kind.UNKNOWN);
    }

    /** Whether a method of the sources, and each that overrides it, only uses a parameter, and neither keeps nor gives it. */
    private boolean isBorrowed(ExecutableElement symbol, int at) {
        if (symbol.isVarArgs() || at < 0 || at >= symbol.getParameters().size()) {
            return false;
        }
        JavaMethod method = program.method(symbol);
        return onlyUses(method, at) && program.overriding().of(method).stream().filter(JavaMethod::isVirtual)
            .allMatch(each -> onlyUses(each, at));
    }

    private boolean onlyUses(JavaMethod method, int at) {
        return method.tree().getBody() != null && through(method.symbol().getParameters().get(at)) == NEVER;
    }

    /** What the table says of a library call. */
    public Choice choose(ExpressionTree select, ExecutableElement symbol) {
        if (program.isAccessor(symbol)) {
            return Choice.ACCESSOR;
        }
        if (attribution.parent(select) instanceof MethodInvocationTree call && results.spreads(call, symbol)) {
            return program.library().choose("java.util.Arrays", "stream");
        }
        TypeMirror type = select instanceof MemberSelectTree member ? attribution.type(member.getExpression()) : null;
        boolean isStatic = symbol.getModifiers().contains(javax.lang.model.element.Modifier.STATIC);
        return program.library().choose(type == null || isStatic ? symbol.getEnclosingElement().asType() : type,
            Library.key(symbol));
    }

    private boolean isBorrowed(NewClassTree made) {
        TypeMirror type = attribution.type(made);
        if (type == null || program.find(type) != null || made.getClassBody() != null) {
            return false;
        }
        Choice choice = program.library().choose(type, "new");
        return choice.kind() == Choice.Kind.PURE && !choice.keeps()
            || choice.kind() == Choice.Kind.UNKNOWN && !mayKeep(choice);
    }

    /** Whether a field is one of the object itself that is put there: nobody gets at it by that alone. */
    private boolean isOwnField(Element symbol, Tree use) {
        return symbol instanceof VariableElement field && field.getKind() == ElementKind.FIELD
            && !field.getModifiers().contains(javax.lang.model.element.Modifier.STATIC) && uses.isThis(use)
            && attribution.type(use) instanceof DeclaredType self && self.asElement() == field.getEnclosingElement();
    }

    private long into(ExpressionTree target, AssignmentTree assignment) {
        Element symbol = attribution.element(Uses.bare(target));
        if (isOwnField(symbol, assignment.getExpression()) && (Uses.bare(target).getKind() == Tree.Kind.IDENTIFIER
                || Uses.bare(target) instanceof MemberSelectTree select && uses.isThis(select.getExpression()))) {
            return NEVER;
        }
        boolean local = symbol instanceof VariableElement && symbol.getKind() != ElementKind.FIELD
            && !(Uses.bare(target) instanceof ArrayAccessTree);
        return local && !views.isLost(assignment.getExpression(), symbol) ? through(symbol) : attribution.end(assignment);
    }

    /** Whether a parameter's object gets away in its method. */
    boolean keeps(Element parameter) {
        return through(parameter) != NEVER;
    }

    /** A second name: where the object gets away by that one. */
    private long through(Element variable) {
        if (variable == null || variable.getKind() == ElementKind.FIELD) {
            return 0;
        }
        Long known = throughs.get(variable);
        if (known != null || visited.contains(variable) || views.isTaken(variable)) {
            return known != null ? known : NEVER;
        } else if (visited.size() > MOST_NAMES) {
            return 0;
        }
        boolean first = visited.isEmpty();
        looks = first ? 0 : looks + uses.of(variable).size();
        visited.add(variable);
        long found = looks > MOST_USES ? 0 : NEVER;
        for (Tree use : looks > MOST_USES ? List.<Tree>of() : uses.of(variable)) {
            found = Math.min(found, earliest(use, uses.declaration(variable)));
        }
        visited.remove(variable);
        if (first || found != NEVER) {
            throughs.put(variable, found);
        }
        return found;
    }

    /** From where on one use lets the object get away: in a loop from its beginning on, and in a lambda from there. */
    public long earliest(Tree use, Tree declaration) {
        Tree home = program.around(declaration);
        Tree at = program.around(use);
        while (at instanceof LambdaExpressionTree lambda && at != home && isCalledAtOnce(lambda)) {
            at = program.around(at);
        }
        if (at != home) {
            Tree loop = uses.outermostLoop(use, declaration);
            return at == null ? 0 : Math.min(attribution.start(at), loop == null ? NEVER : attribution.start(loop));
        }
        long found = from(use);
        if (found == NEVER || attribution.parent(use) instanceof ReturnTree) {
            return found;
        }
        Tree loop = uses.outermostLoop(use, declaration);
        return loop == null ? found : Math.min(found, attribution.start(loop));
    }

    /** Whether a lambda or a method's name is called by what it is given to, before that returns, and not kept. */
    public boolean isCalledAtOnce(Tree function) {
        return atOnce.isCalled(function);
    }

    /** Whether a callee takes an argument as more than any object, and so may call it. */
    public boolean isTaken(Tree call, int at) {
        return atOnce.isTaken(call, at);
    }
}
