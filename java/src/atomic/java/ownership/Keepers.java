package atomic.java.ownership;

import atomic.java.attribution.Attribution;
import atomic.java.library.Choice;
import atomic.java.program.JavaClass;
import atomic.java.program.Program;
import com.sun.source.tree.AssignmentTree;
import com.sun.source.tree.ClassTree;
import com.sun.source.tree.ExpressionTree;
import com.sun.source.tree.LambdaExpressionTree;
import com.sun.source.tree.MemberReferenceTree;
import com.sun.source.tree.MemberSelectTree;
import com.sun.source.tree.MethodInvocationTree;
import com.sun.source.tree.MethodTree;
import com.sun.source.tree.NewClassTree;
import com.sun.source.tree.ParenthesizedTree;
import com.sun.source.tree.Tree;
import com.sun.source.tree.TypeCastTree;
import com.sun.source.tree.VariableTree;
import com.sun.source.util.TreeScanner;
import java.util.HashMap;
import java.util.Map;
import java.util.Set;
import javax.lang.model.element.Element;
import javax.lang.model.element.ElementKind;
import javax.lang.model.element.Modifier;

/**
 * Fields that keep what knows their own object, such as a task that runs its methods, or a thread that has such a task. To put
 * it there shows the object to nobody. What is done with such a field later may.
 */
final class Keepers {
    /** Calls that run nothing of what a thread keeps. */
    private static final Set<String> NAMING = Set.of("setDaemon", "setName", "setPriority");

    private final Program program;
    private final Attribution attribution;
    private final Uses uses;
    private final Map<Element, Boolean> known = new HashMap<>();
    private final Map<JavaClass, Boolean> having = new HashMap<>();

    Keepers(Program program, Uses uses) {
        this.program = program;
        this.uses = uses;
        attribution = program.attribution();
    }

    /** Whether a class, or one above it, has such a field. */
    boolean has(JavaClass each) {
        return each != null && having.computeIfAbsent(each, key -> key.symbol().getEnclosedElements().stream().anyMatch(this::is))
            || each != null && has(program.find(each.symbol().getSuperclass()));
    }

    /** Whether a field keeps what knows its object. */
    boolean is(Element field) {
        Boolean before = isOfObject(field) ? known.get(field) : Boolean.FALSE;
        if (before == null) {
            known.put(field, false);
            before = uses.assignments(field).stream().anyMatch(each -> each.value() != null && knows(each.value()));
            known.put(field, before);
        }
        return before;
    }

    /** Whether a thread in a field is only named here, and the like. */
    boolean isOnlyNamed(Tree field) {
        return attribution.parent(field) instanceof MemberSelectTree select && NAMING.contains(select.getIdentifier().toString())
            && program.method(attribution.element(select)) == null;
    }

    private static boolean isOfObject(Element field) {
        return field != null && field.getKind() == ElementKind.FIELD && !field.getModifiers().contains(Modifier.STATIC);
    }

    /** Whether an expression may give what knows the object in whose code it stands. */
    private boolean knows(ExpressionTree tree) {
        ExpressionTree bare = Uses.bare(tree);
        if (bare instanceof TypeCastTree cast) {
            return knows(cast.getExpression());
        } else if (bare instanceof NewClassTree made) {
            JavaClass known = program.find(attribution.type(made));
            return made.getClassBody() != null || known != null && known.hasOuterObject()
                || made.getArguments().stream().anyMatch(each -> knows(each) && !new Borrowers(program, uses, any -> true).borrow(each));
        }
        return bare instanceof LambdaExpressionTree || bare instanceof MemberReferenceTree || Uses.isName(bare, "this")
            || is(attribution.element(bare));
    }

    /** Whether an expression goes into a field of the own object, by itself or within a library's new object that keeps it. */
    boolean isPutAway(Tree tree, JavaClass self) {
        Tree each = tree;
        Tree parent = attribution.parent(each);
        while (parent instanceof ParenthesizedTree || parent instanceof TypeCastTree || keeps(parent, each)) {
            each = parent;
            parent = attribution.parent(each);
        }
        Element field = parent instanceof VariableTree ? attribution.element(parent)
            : parent instanceof AssignmentTree assignment && assignment.getExpression() == each
            && attribution.parent(assignment).getKind() == Tree.Kind.EXPRESSION_STATEMENT
            && isOwn(assignment.getVariable()) ? attribution.element(Uses.bare(assignment.getVariable())) : null;
        return isOfObject(field) && field.getEnclosingElement() == self.symbol();
    }

    private boolean isOwn(ExpressionTree target) {
        ExpressionTree bare = Uses.bare(target);
        return bare.getKind() == Tree.Kind.IDENTIFIER || bare instanceof MemberSelectTree select
            && Uses.isName(select.getExpression(), "this");
    }

    /** Whether a tree makes a library's object that only keeps what it is made of. */
    private boolean keeps(Tree tree, Tree argument) {
        return tree instanceof NewClassTree made && made.getArguments().contains(argument) && made.getClassBody() == null
            && program.find(attribution.type(made)) == null
            && program.library().choose(attribution.type(made), "new").kind() == Choice.Kind.PURE;
    }

    /** Whether the making of a node does nothing with the container: no call, no other object, and no name for it. */
    static boolean onlyKeeps(JavaClass node) {
        boolean[] keeps = {true};
        TreeScanner<Void, Void> scanner = new TreeScanner<>() {
            @Override
            public Void scan(Tree tree, Void nothing) {
                boolean calls = tree instanceof MethodInvocationTree call && !call.getMethodSelect().toString().equals("super");
                keeps[0] &= !calls && !(tree instanceof NewClassTree) && !(tree instanceof LambdaExpressionTree)
                    && !(tree instanceof MemberReferenceTree) && !(tree instanceof MemberSelectTree select
                    && select.getIdentifier().contentEquals("this"));
                return keeps[0] ? super.scan(tree, nothing) : null;
            }
        };
        for (Tree member : node.tree().getMembers()) {
            boolean runs = !(member instanceof MethodTree method) || method.getReturnType() == null;
            if (runs && !(member instanceof ClassTree)) {
                scanner.scan(member, null);
            }
        }
        return keeps[0];
    }
}
