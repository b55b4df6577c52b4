package atomic.java.trace;

import atomic.java.attribution.Attribution;
import atomic.java.library.Library;
import atomic.java.skeleton.Place;
import com.sun.source.tree.ArrayAccessTree;
import com.sun.source.tree.AssignmentTree;
import com.sun.source.tree.BlockTree;
import com.sun.source.tree.ClassTree;
import com.sun.source.tree.CompoundAssignmentTree;
import com.sun.source.tree.EnhancedForLoopTree;
import com.sun.source.tree.ExpressionStatementTree;
import com.sun.source.tree.ExpressionTree;
import com.sun.source.tree.IdentifierTree;
import com.sun.source.tree.MemberSelectTree;
import com.sun.source.tree.MethodInvocationTree;
import com.sun.source.tree.MethodTree;
import com.sun.source.tree.ParenthesizedTree;
import com.sun.source.tree.StatementTree;
import com.sun.source.tree.SynchronizedTree;
import com.sun.source.tree.Tree;
import com.sun.source.tree.UnaryTree;
import com.sun.source.tree.AnnotationTree;
import java.util.List;
import java.util.Set;
import java.util.function.Predicate;
import javax.lang.model.element.Element;
import javax.lang.model.element.ElementKind;
import javax.lang.model.element.Modifier;
import javax.lang.model.element.TypeElement;

/**
 * A copy of a source that logs each visible step: accesses of fields that aren't final and of elements of arrays, locks, waits, threads,
 * and calls of library methods that others can see. It decides nothing about ownership: what only one thread ever touches is found in
 * the log. Accesses of an object's own fields in its constructor aren't logged.
 */
final class LoggedCopy extends Copy {
    private static final String TRACE = "atomic.trace.Trace.";
    private static final Set<Tree.Kind> STEPS_BY_ONE = Set.of(Tree.Kind.PREFIX_INCREMENT, Tree.Kind.PREFIX_DECREMENT,
        Tree.Kind.POSTFIX_INCREMENT, Tree.Kind.POSTFIX_DECREMENT);
    private final Set<Element> classes;
    private final Predicate<MethodTree> atomic;
    private final LoggedCalls calls;
    private ClassTree inside;
    private MethodTree method;
    private int names;

    LoggedCopy(Attribution attribution, Library library, Set<Element> classes, String text, Predicate<MethodTree> atomic,
            Set<Place> singles) {
        super(attribution, text);
        this.classes = classes;
        this.atomic = atomic;
        calls = new LoggedCalls(this, library, classes, singles);
    }

    @Override
    String of(Tree tree) {
        if (tree instanceof ClassTree declared) {
            return ofClass(declared);
        } else if (tree instanceof MethodTree declared) {
            return ofMethod(declared);
        } else if (tree instanceof AnnotationTree) {
            return text(attribution().start(tree), attribution().end(tree));
        } else if (tree instanceof SynchronizedTree region) {
            return "try (" + TRACE + "Held " + fresh() + " = " + TRACE + "take(" + at(region) + ", "
                + of(region.getExpression()) + ")) " + of(region.getBlock());
        } else if (tree instanceof AssignmentTree assigned && isLogged(assigned.getVariable())) {
            return wrote(assigned, assigned.getVariable(), false);
        } else if (tree instanceof CompoundAssignmentTree assigned && isLogged(assigned.getVariable())) {
            return wrote(assigned, assigned.getVariable(), true);
        } else if (tree instanceof UnaryTree sign && STEPS_BY_ONE.contains(sign.getKind()) && isLogged(sign.getExpression())) {
            return wrote(sign, sign.getExpression(), true);
        } else if (tree instanceof ExpressionTree read && isLogged(read)) {
            return TRACE + "read(" + where(read, false) + ", " + target(read, false) + ")";
        } else if (tree instanceof MethodInvocationTree call) {
            return calls.of(call);
        } else if (tree instanceof EnhancedForLoopTree loop) {
            return ofLoop(loop);
        }
        return plain(tree);
    }

    private String fresh() {
        return "logged" + ++names;
    }

    /** The place of a tree as a literal. */
    String at(Tree tree) {
        var place = attribution().name(tree);
        return "\"" + place.line() + ":" + place.column() + "\"";
    }

    private String ofClass(ClassTree declared) {
        ClassTree before = inside;
        MethodTree around = method;
        inside = declared;
        method = null;
        String copy = plain(declared);
        inside = before;
        method = around;
        return copy;
    }

    private String ofMethod(MethodTree declared) {
        BlockTree body = declared.getBody();
        if (body == null || attribution().start(declared) < 0 || attribution().end(body) <= attribution().start(body)) {
            return text(attribution().start(declared), attribution().end(declared));
        }
        MethodTree before = method;
        method = declared;
        String head = text(attribution().start(declared), attribution().start(body));
        boolean locks = declared.getModifiers().getFlags().contains(Modifier.SYNCHRONIZED);
        if (locks) {
            head = head.replaceFirst("\\bsynchronized\\b", "");
        }
        String copy = head + ofBody(declared, body, locks);
        method = before;
        return copy;
    }

    private String ofBody(MethodTree declared, BlockTree body, boolean locks) {
        List<? extends StatementTree> statements = body.getStatements();
        boolean callsFirst = !statements.isEmpty() && isConstructorCall(statements.get(0))
            && attribution().end(statements.get(0)) > 0;
        long start = callsFirst ? attribution().end(statements.get(0)) : attribution().start(body) + 1;
        var place = attribution().name(declared);
        String name = inside.getSimpleName() + "." + declared.getName().toString().replace("<init>", "new");
        String opened = "try (" + TRACE + "Held " + fresh() + " = " + TRACE + "enter(\"" + name + "@" + place.line() + ":"
            + place.column() + "\", " + atomic.test(declared) + ")" + (locks ? "; " + TRACE + "Held " + fresh() + " = " + TRACE
            + "take(" + at(declared) + ", " + lockOf(declared) + ")" : "") + ") {";
        return text(attribution().start(body), start) + opened
            + between(start, attribution().end(body) - 1, callsFirst ? statements.subList(1, statements.size()) : statements)
            + "}}";
    }

    private String lockOf(MethodTree declared) {
        boolean isStatic = declared.getModifiers().getFlags().contains(Modifier.STATIC);
        return isStatic ? inside.getSimpleName() + ".class" : "this";
    }

    private static boolean isConstructorCall(StatementTree statement) {
        return statement instanceof ExpressionStatementTree expression
            && expression.getExpression() instanceof MethodInvocationTree call
            && call.getMethodSelect() instanceof IdentifierTree name
            && (name.getName().contentEquals("super") || name.getName().contentEquals("this"));
    }

    private String ofLoop(EnhancedForLoopTree loop) {
        ExpressionTree over = loop.getExpression();
        long start = attribution().start(loop);
        return text(start, attribution().start(over)) + TRACE + "calling(" + at(over) + ", \"reads\", " + of(over) + ")"
            + text(attribution().end(over), attribution().start(loop.getStatement())) + of(loop.getStatement());
    }

    /** An assignment of a logged variable; {@code reads} says that its value is looked at first. */
    private String wrote(Tree assigned, ExpressionTree variable, boolean reads) {
        ExpressionTree inner = stripped(variable);
        String target = target(inner, reads);
        String copy = between(attribution().start(assigned), attribution().start(variable), List.of()) + target
            + between(attribution().end(variable), attribution().end(assigned),
                parts(assigned).stream().filter(part -> part != variable).toList());
        return TRACE + "wrote(" + where(inner, reads) + ", " + copy + ")";
    }

    /** The place, the name and, of a static field, the class. */
    private String where(ExpressionTree variable, boolean reads) {
        if (variable instanceof ArrayAccessTree) {
            return TRACE + "at(" + at(variable) + ", \"\")";
        }
        Element field = attribution().element(variable);
        String words = at(variable) + ", \"" + field.getSimpleName() + "\"";
        boolean isStatic = field.getModifiers().contains(Modifier.STATIC);
        String owner = isStatic ? ", " + ((TypeElement) field.getEnclosingElement()).getQualifiedName() + ".class" : "";
        return TRACE + (isStatic && reads ? "reading(" : "at(") + words + owner + ")";
    }

    /** The variable itself, whose object or array goes through the log. */
    private String target(ExpressionTree variable, boolean reads) {
        if (variable instanceof ArrayAccessTree element) {
            String index = of(element.getIndex());
            return TRACE + "on(" + of(element.getExpression()) + ")[" + TRACE
                + (reads ? "reading(" + at(variable) + ", " + index + ")" : "index(" + index + ")") + "]";
        }
        Element field = attribution().element(variable);
        if (field.getModifiers().contains(Modifier.STATIC)) {
            return text(attribution().start(variable), attribution().end(variable));
        }
        String object = variable instanceof MemberSelectTree member ? ofObject(member.getExpression()) : holder(field);
        String through = reads ? "reading(" + at(variable) + ", \"" + field.getSimpleName() + "\", " + object + ")"
            : "on(" + object + ")";
        return TRACE + through + "." + field.getSimpleName();
    }

    private String ofObject(ExpressionTree object) {
        return object instanceof IdentifierTree name && name.getName().contentEquals("super") ? "this" : of(object);
    }

    /** The object that an unqualified name belongs to: this one, or one of those around it. */
    private String holder(Element field) {
        TypeElement owner = (TypeElement) field.getEnclosingElement();
        var types = attribution().types();
        for (Tree each = inside; each != null; each = attribution().parent(each)) {
            if (each instanceof ClassTree around && attribution().element(around) instanceof TypeElement known
                    && types.isSubtype(types.erasure(known.asType()), types.erasure(owner.asType()))) {
                return around == inside ? "this" : around.getSimpleName() + ".this";
            }
        }
        return "this";
    }

    private static ExpressionTree stripped(ExpressionTree tree) {
        return tree instanceof ParenthesizedTree around ? stripped(around.getExpression()) : tree;
    }

    /** Whether an access of the variable is a step: an element, or a field of these sources that isn't final. */
    private boolean isLogged(ExpressionTree tree) {
        ExpressionTree variable = stripped(tree);
        if (variable instanceof ArrayAccessTree) {
            return variable == tree || attribution().parent(tree) instanceof UnaryTree;
        }
        boolean named = variable instanceof IdentifierTree || variable instanceof MemberSelectTree;
        Element field = named ? attribution().element(variable) : null;
        return field != null && field.getKind() == ElementKind.FIELD && variable == tree
            && !field.getModifiers().contains(Modifier.FINAL) && classes.contains(field.getEnclosingElement())
            && !isOwnInConstructor(variable, field) && !isSelfWord(field);
    }

    private static boolean isSelfWord(Element field) {
        String name = field.getSimpleName().toString();
        return name.equals("this") || name.equals("super") || name.equals("class") || name.equals("length");
    }

    private boolean isOwnInConstructor(ExpressionTree variable, Element field) {
        boolean own = variable instanceof IdentifierTree || variable instanceof MemberSelectTree member
            && member.getExpression() instanceof IdentifierTree name && name.getName().contentEquals("this");
        boolean made = method == null || method.getReturnType() == null;
        return own && made && !field.getModifiers().contains(Modifier.STATIC)
            && attribution().element(inside) == field.getEnclosingElement() && !isInLambda(variable);
    }

    private boolean isInLambda(Tree tree) {
        Tree each = tree;
        while (each != null && each != inside && each != method) {
            if (each.getKind() == Tree.Kind.LAMBDA_EXPRESSION) {
                return true;
            }
            each = attribution().parent(each);
        }
        return false;
    }
}
