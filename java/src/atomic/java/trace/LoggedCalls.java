package atomic.java.trace;

import atomic.java.library.Choice;
import atomic.java.library.Library;
import atomic.java.skeleton.Place;
import com.sun.source.tree.ArrayAccessTree;
import com.sun.source.tree.ExpressionTree;
import com.sun.source.tree.IdentifierTree;
import com.sun.source.tree.LambdaExpressionTree;
import com.sun.source.tree.MemberReferenceTree;
import com.sun.source.tree.MemberSelectTree;
import com.sun.source.tree.MethodInvocationTree;
import com.sun.source.tree.NewClassTree;
import com.sun.source.tree.Tree;
import com.sun.source.util.TreeScanner;
import java.util.List;
import java.util.Set;
import javax.lang.model.element.Element;
import javax.lang.model.element.Modifier;
import javax.lang.model.type.TypeKind;
import javax.lang.model.type.TypeMirror;

/** Calls in a logged copy: of locks, waits and threads, which the scheduler does itself, and of library methods that others can see. */
final class LoggedCalls {
    private static final String TRACE = "atomic.trace.Trace.";
    private static final Set<String> LOCK_CALLS = Set.of("lock", "lockInterruptibly", "tryLock", "unlock");
    private static final Set<String> ATTEMPTS = Set.of("compareAndSet", "weakCompareAndSetVolatile");
    private static final Set<String> LOOKS = Set.of("get", "getOrDefault", "containsKey", "contains");
    private static final Set<String> UPDATES = Set.of("getAndUpdate", "updateAndGet", "getAndAccumulate", "accumulateAndGet");
    private static final String CONDITION = "java.util.concurrent.locks.Condition";
    private final LoggedCopy copy;
    private final Library library;
    private final Set<Element> classes;
    private final Set<Place> singles;

    /** Of a copy; {@code singles} are the places of calls that are one step, whatever the table says. */
    LoggedCalls(LoggedCopy copy, Library library, Set<Element> classes, Set<Place> singles) {
        this.copy = copy;
        this.library = library;
        this.classes = classes;
        this.singles = singles;
    }

    String of(MethodInvocationTree call) {
        Element called = copy.attribution().element(call);
        if (called == null || classes.contains(called.getEnclosingElement()) || is(called, CONDITION)) {
            return copy.plain(call);
        }
        String name = called.getSimpleName().toString();
        if (owner(called).equals("java.lang.Object") && (name.equals("wait") || name.startsWith("notify"))) {
            String object = receiver(call);
            return name.equals("wait") ? TRACE + "await(" + withArguments(object, call) + ")"
                : TRACE + "wake(" + object + ", " + name.equals("notifyAll") + ")";
        } else if (is(called, "java.lang.Thread") && (name.equals("start") || name.equals("join"))) {
            return TRACE + name + "(" + copy.at(call) + ", " + receiver(call) + ")";
        } else if (is(called, "java.util.concurrent.locks.Lock") && LOCK_CALLS.contains(name)) {
            return TRACE + name + "(" + copy.at(call) + ", " + withArguments(receiver(call), call) + ")";
        } else if (is(called, "java.util.concurrent.locks.StampedLock")) {
            return stamped(call, name);
        } else if (name.equals("newCondition") || is(called, "java.util.concurrent.locks.ReadWriteLock")
                && (name.equals("readLock") || name.equals("writeLock"))) {
            return TRACE + name + "(" + receiver(call) + ")";
        }
        return ofLibrary(call, called, name);
    }

    /** A lock that gives a stamp. A look that takes no lock finds it taken each time, so that it is looked at with the lock. */
    private String stamped(MethodInvocationTree call, String name) {
        if (name.matches("(read|write)Lock(Interruptibly)?")) {
            return TRACE + "takeStamped(" + copy.at(call) + ", " + receiver(call) + ")";
        } else if (name.matches("unlock(Read|Write)?")) {
            return TRACE + "giveStamped(" + copy.at(call) + ", " + withArguments(receiver(call), call) + ")";
        }
        return name.equals("tryOptimisticRead") ? "0L" : copy.plain(call);
    }

    private boolean is(Element called, String type) {
        var known = copy.attribution().elements().getTypeElement(type);
        var types = copy.attribution().types();
        return known != null && types.isSubtype(types.erasure(called.getEnclosingElement().asType()), types.erasure(known.asType()));
    }

    private String withArguments(String object, MethodInvocationTree call) {
        StringBuilder words = new StringBuilder(object);
        call.getArguments().forEach(each -> words.append(", ").append(copy.of(each)));
        return words.toString();
    }

    private String receiver(MethodInvocationTree call) {
        return call.getMethodSelect() instanceof MemberSelectTree member ? copy.of(member.getExpression()) : "this";
    }

    private String ofLibrary(MethodInvocationTree call, Element called, String name) {
        boolean isStatic = called.getModifiers().contains(Modifier.STATIC);
        ExpressionTree object = call.getMethodSelect() instanceof MemberSelectTree member ? member.getExpression() : null;
        TypeMirror type = isStatic || object == null ? called.getEnclosingElement().asType() : copy.attribution().type(object);
        Choice choice = type == null ? Choice.UNKNOWN : library.choose(type, name);
        boolean attempt = choice.kind() == Choice.Kind.STEP && isAttempt(name, call.getArguments().size());
        boolean looks = choice.kind() == Choice.Kind.STEP && LOOKS.contains(name);
        boolean updates = UPDATES.contains(name) && owner(called).startsWith("java.util.concurrent.atomic.");
        boolean single = choice.kind() == Choice.Kind.COMPOUND && singles.contains(copy.attribution().name(call));
        String kind = attempt ? "tries" : looks ? "reads" : updates || single ? "step" : kind(choice);
        boolean plainObject = object == null || object instanceof IdentifierTree word && word.getName().contentEquals("super");
        String place = copy.at(call) + ", \"" + kind + "\", ";
        if (isStatic || plainObject || kind.isEmpty()) {
            return copy.plain(call.getMethodSelect()) + arguments(call, choice, "");
        }
        List<? extends ExpressionTree> arguments = call.getArguments();
        boolean last = attempt || !arguments.isEmpty() && !isFunction(arguments.get(arguments.size() - 1))
            && arguments.stream().anyMatch(LoggedCalls::mayStep);
        String through = TRACE + (last ? "on(" : "calling(" + place) + copy.of(object) + ").";
        String whole = through + name + arguments(call, choice, last ? TRACE + "callingWith(" + place : "");
        return attempt ? TRACE + "tried(" + copy.at(call) + ", " + whole + ")" : whole;
    }

    /** Whether a call changes something only if nobody came in between, and tells whether it did. */
    private static boolean isAttempt(String name, int given) {
        return ATTEMPTS.contains(name) && given == 2 || name.equals("replace") && given == 3 || name.equals("remove") && given == 2;
    }

    private static String owner(Element called) {
        return called.getEnclosingElement().toString();
    }

    /** How the log tells the call; nothing where it is no step. */
    private static String kind(Choice choice) {
        return switch (choice.kind()) {
            case READS -> "reads";
            case WRITES -> "writes";
            case STEP -> "step";
            case COMPOUND, RUN, UNKNOWN -> "compound";
            default -> "";
        };
    }

    /** The arguments; what one of them is filled with is logged when all of them are known. */
    private String arguments(MethodInvocationTree call, Choice choice, String around) {
        StringBuilder words = new StringBuilder("(");
        List<? extends ExpressionTree> arguments = call.getArguments();
        int filled = choice.fills() ? filled(arguments) : -1;
        for (int at = 0; at < arguments.size(); at++) {
            boolean last = at == arguments.size() - 1;
            String word = copy.of(arguments.get(at));
            word = at != filled ? word : last ? TRACE + "filled(" + copy.at(call) + ", " + word + ")" : TRACE + "on(" + word + ")";
            if (last && filled >= 0 && filled != at) {
                word = TRACE + "callingWith(" + copy.at(call) + ", \"writes\", " + word + ")";
            }
            words.append(last && !around.isEmpty() ? around + word + ")" : word).append(last ? "" : ", ");
        }
        return words.append(")").toString();
    }

    /** Which argument is filled: of two arrays the second one, as in {@code arraycopy}. */
    private int filled(List<? extends ExpressionTree> arguments) {
        int found = -1;
        for (int at = 0; at < arguments.size(); at++) {
            found = isFilled(arguments.get(at)) ? at : found;
        }
        return found;
    }

    private boolean isFilled(ExpressionTree argument) {
        TypeMirror type = copy.attribution().type(argument);
        return type != null && (type.getKind() == TypeKind.ARRAY || type.getKind() == TypeKind.DECLARED && library.hasContents(type));
    }

    private static boolean isFunction(ExpressionTree tree) {
        return tree instanceof LambdaExpressionTree || tree instanceof MemberReferenceTree;
    }

    /** Whether something in the tree may be a step, so that it has to stand before the call in the log. */
    private static boolean mayStep(Tree tree) {
        boolean[] found = new boolean[1];
        new TreeScanner<Void, Void>() {
            @Override
            public Void scan(Tree part, Void nothing) {
                found[0] |= part instanceof MethodInvocationTree || part instanceof NewClassTree || part instanceof MemberSelectTree
                    || part instanceof ArrayAccessTree || part instanceof IdentifierTree;
                return part == null || found[0] ? null : super.scan(part, nothing);
            }
        }.scan(tree, null);
        return found[0];
    }
}
