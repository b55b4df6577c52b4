package atomic.java.ownership;

import atomic.java.attribution.Attribution;
import atomic.java.places.Notes;
import atomic.java.program.Families;
import atomic.java.program.JavaClass;
import atomic.java.program.JavaMethod;
import atomic.java.program.Program;
import com.sun.source.tree.AssignmentTree;
import com.sun.source.tree.ConditionalExpressionTree;
import com.sun.source.tree.ExpressionTree;
import com.sun.source.tree.IdentifierTree;
import com.sun.source.tree.LambdaExpressionTree;
import com.sun.source.tree.MemberSelectTree;
import com.sun.source.tree.MethodInvocationTree;
import com.sun.source.tree.MethodTree;
import com.sun.source.tree.NewArrayTree;
import com.sun.source.tree.NewClassTree;
import com.sun.source.tree.ReturnTree;
import com.sun.source.tree.Tree;
import com.sun.source.tree.TypeCastTree;
import com.sun.source.tree.VariableTree;
import java.util.ArrayDeque;
import java.util.Deque;
import java.util.HashSet;
import java.util.LinkedHashSet;
import java.util.List;
import java.util.Set;
import javax.lang.model.element.Element;
import javax.lang.model.element.ElementKind;
import javax.lang.model.element.ExecutableElement;
import javax.lang.model.element.Modifier;
import javax.lang.model.element.VariableElement;

/**
 * The names under which code of a class knows the object of one of its fields: locals, parameters and results of
 * methods that are called here alone, and fields of nested objects. The object gets no further where each of these
 * only hands it to another one, and where all that any of them ever holds was made for the field. All of it stays
 * with one object of the class: each such call and field is one of {@code this}, of the object around it, or of a
 * nested object, which knows it for an object without a name.
 */
final class Confinement {
    private final Program program;
    private final Attribution attribution;
    private final Uses uses;
    private final Ownership ownership;
    private final Sites sites;
    private final VariableElement field;
    private final JavaClass home;
    private final Set<Element> holders = new HashSet<>();
    private final Deque<Element> waiting = new ArrayDeque<>();
    private final Set<JavaMethod> open = new LinkedHashSet<>();
    private boolean holds = true;
    private String made = "";

    Confinement(Program program, Ownership ownership, Sites sites, VariableElement field) {
        this.program = program;
        uses = ownership.uses();
        this.ownership = ownership;
        this.sites = sites;
        this.field = field;
        attribution = program.attribution();
        home = program.find(field.getEnclosingElement());
    }

    /** The names, where the object gets no further; else null. */
    Set<Element> holders() {
        holds = home != null && !Families.isStatic(field) && sites.hasNoHeirWithin(home);
        add(field);
        while (holds && !waiting.isEmpty()) {
            Element next = waiting.remove();
            if (next instanceof VariableElement variable) {
                variable(variable);
            } else {
                results((ExecutableElement) next);
            }
        }
        if (!holds || made.isEmpty()) {
            return null;
        }
        open.forEach(method -> program.notes().tell(Notes.Kind.ASSUMED, null, method.place(),
            "no code outside these files calls " + method.symbol().getSimpleName()));
        return holders;
    }

    /** The class of all objects that the field holds; an array is {@code []}. */
    String made() {
        return made;
    }

    private void need(boolean condition) {
        holds &= condition;
    }

    private void add(Element holder) {
        if (holders.add(holder)) {
            waiting.add(holder);
        }
    }

    private void variable(VariableElement variable) {
        for (Tree use : uses.of(variable)) {
            if (variable == field && !isOwn(use)) {
                other(use);
            } else {
                need(variable.getKind() == ElementKind.FIELD ? isOwn(use) : isWithin(use, variable));
                flow(use);
            }
        }
        for (Uses.Assignment each : uses.assignments(variable)) {
            source(each.value());
        }
        if (variable.getKind() == ElementKind.FIELD && variable != field) {
            JavaClass owner = program.find(variable.getEnclosingElement());
            need(isNested(owner) && !Ownership.isOpen(variable)
                && (variable.getModifiers().contains(Modifier.PRIVATE) || isHidden(owner)));
        } else if (variable.getKind() != ElementKind.FIELD && variable.getKind() != ElementKind.LOCAL_VARIABLE) {
            parameter(variable);
        }
    }

    /** Another object's field: its own object is only looked at here, or made anew. */
    private void other(Tree use) {
        boolean target = attribution.parent(use) instanceof AssignmentTree assignment && assignment.getVariable() == use
            && isMadeHere(Uses.bare(assignment.getExpression()));
        need(target || ownership.escape().from(use) == Escape.NEVER);
    }

    private boolean isMadeHere(ExpressionTree value) {
        boolean making = value instanceof NewClassTree || value instanceof NewArrayTree
            || value instanceof MethodInvocationTree && program.method(attribution.element(value)) == null;
        return making && ownership.fresh(value) != null;
    }

    /** Whether a local is used in the code that declares it, or in a function that is called at once. */
    private boolean isWithin(Tree use, VariableElement variable) {
        Tree declaration = uses.declaration(variable);
        Tree at = program.around(use);
        Tree around = declaration == null ? null : program.around(declaration);
        while (at instanceof LambdaExpressionTree && at != around && ownership.escape().isCalledAtOnce(at)) {
            at = program.around(at);
        }
        return around != null && at == around;
    }

    /** Whether a class stands within the field's class. */
    private boolean isNested(JavaClass each) {
        return each != null && (each.outer() == home || isNested(each.outer()));
    }

    /** All calls of its method hand in what the field may hold. */
    private void parameter(VariableElement parameter) {
        JavaMethod method = program.method(parameter.getEnclosingElement());
        int at = method == null ? -1 : method.symbol().getParameters().indexOf(parameter);
        need(at >= 0 && !method.symbol().isVarArgs() && isClosed(method));
        for (Tree site : holds ? sites.of(method.symbol()) : List.<Tree>of()) {
            List<? extends ExpressionTree> arguments = site instanceof MethodInvocationTree call ? call.getArguments()
                : ((NewClassTree) site).getArguments();
            need(isOwnCall(site));
            source(arguments.get(at));
        }
    }

    /** What a method gives is what the field may hold, and each call of it goes on with that. */
    private void results(ExecutableElement symbol) {
        JavaMethod method = program.method(symbol);
        need(method != null && isClosed(method) && method.tree().getBody() != null && isNear(method));
        if (holds) {
            sites.results(method).forEach(this::source);
            for (Tree site : sites.of(symbol)) {
                need(isOwnCall(site));
                flow(site);
            }
        }
    }

    /** Whether all calls of a method are here, and run this method. */
    private boolean isClosed(JavaMethod method) {
        boolean hidden = isHidden(method);
        if (!hidden) {
            open.add(method);
        }
        return !method.isOpen() && !sites.isReferenced(method.symbol()) && isNear(method)
            && (hidden || !sites.of(method.symbol()).isEmpty() && !program.options().strict()) && runsItself(method);
    }

    /** Whether a call of a method runs that one, and not one in its place. */
    private boolean runsItself(JavaMethod method) {
        return !method.isVirtual() || !program.overriding().isOverridden(method)
            && !program.overriding().overridesAny(method);
    }

    /** Whether only code of the same source can call a method. Another one that nobody here calls is for others. */
    static boolean isHidden(JavaMethod method) {
        return method.isPrivate() || isHidden(method.owner());
    }

    private static boolean isHidden(JavaClass owner) {
        for (JavaClass each = owner; each != null; each = each.outer()) {
            if (each.symbol().getModifiers().contains(Modifier.PRIVATE) || each.symbol().getSimpleName().isEmpty()) {
                return true;
            }
        }
        return false;
    }

    /** Whether a method belongs to the field's class, or to one within it. */
    private boolean isNear(JavaMethod method) {
        return method.owner() == home || isNested(method.owner());
    }

    private boolean isOwnCall(Tree site) {
        if (site instanceof NewClassTree making) {
            JavaMethod constructor = program.method(attribution.element(making));
            return making.getEnclosingExpression() == null && making.getClassBody() == null && constructor != null
                && isNested(constructor.owner());
        }
        ExpressionTree select = ((MethodInvocationTree) site).getMethodSelect();
        return isOwn(select) || Families.isStatic(attribution.element(select));
    }

    /** Whether a member is named without an object, or behind {@code this}. */
    static boolean isOwn(Tree tree) {
        return tree instanceof IdentifierTree || tree instanceof MemberSelectTree select
            && (Uses.isName(select.getExpression(), "this") || select.getExpression() instanceof MemberSelectTree outer
                && outer.getIdentifier().contentEquals("this"));
    }

    /** Where the object goes from an expression. */
    private void flow(Tree tree) {
        Tree parent = attribution.parent(tree);
        if (parent instanceof AssignmentTree assignment) {
            if (assignment.getExpression() == tree) {
                into(Uses.bare(assignment.getVariable()));
            }
            if (attribution.parent(assignment).getKind() != Tree.Kind.EXPRESSION_STATEMENT) {
                flow(assignment);
            }
        } else if (parent instanceof VariableTree variable) {
            Element symbol = attribution.element(variable);
            need(symbol != null);
            if (!ownership.taken().is(symbol)) {
                add(symbol);
            }
        } else if (parent instanceof ReturnTree) {
            need(program.around(parent) instanceof MethodTree);
            if (holds) {
                add(attribution.element(program.around(parent)));
            }
        } else if (parent instanceof TypeCastTree || parent instanceof ConditionalExpressionTree either
                && either.getCondition() != tree || parent.getKind() == Tree.Kind.PARENTHESIZED
                && attribution.parent(parent).getKind() != Tree.Kind.SYNCHRONIZED) {
            flow(parent);
        } else if (!intoParameter(parent, tree)) {
            need(ownership.escape().from(tree) == Escape.NEVER);
        }
    }

    private void into(ExpressionTree target) {
        Element symbol = attribution.element(target);
        boolean named = symbol instanceof VariableElement && (target instanceof IdentifierTree || isOwn(target));
        need(named);
        if (named && !ownership.taken().is(symbol)) {
            add(symbol);
        }
    }

    /** Whether an argument goes to a method that is only called here. What a record is made of, its accessors give away. */
    private boolean intoParameter(Tree parent, Tree tree) {
        List<? extends ExpressionTree> arguments = parent instanceof MethodInvocationTree call ? call.getArguments()
            : parent instanceof NewClassTree making ? making.getArguments() : List.of();
        JavaMethod method = program.method(attribution.element(parent));
        int at = arguments.indexOf(tree);
        if (method == null || at < 0 || method.symbol().isVarArgs() || !isClosed(method)
                || method.isConstructor() && method.owner().symbol().getKind() == ElementKind.RECORD) {
            return false;
        }
        add(method.symbol().getParameters().get(at));
        return true;
    }

    /** What is put into one of the names: it was made for the field, or another name has it. */
    private void source(ExpressionTree tree) {
        if (tree == null) {
            need(false);
            return;
        }
        ExpressionTree bare = Uses.bare(tree);
        Element symbol = attribution.element(bare);
        if (bare instanceof TypeCastTree cast) {
            source(cast.getExpression());
        } else if (bare instanceof ConditionalExpressionTree either) {
            source(either.getTrueExpression());
            source(either.getFalseExpression());
        } else if (bare instanceof AssignmentTree assignment) {
            into(Uses.bare(assignment.getVariable()));
            source(assignment.getExpression());
        } else if (symbol instanceof VariableElement) {
            need(!ownership.taken().is(symbol));
            into(bare);
        } else if (bare instanceof MethodInvocationTree && program.method(symbol) != null) {
            add(symbol);
        } else if (bare.getKind() != Tree.Kind.NULL_LITERAL) {
            String one = ownership.fresh(bare);
            need(one != null && (made.isEmpty() || made.equals(one)));
            made = one == null ? made : one;
        }
    }
}
