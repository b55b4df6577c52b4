package atomic.java.translation;

import atomic.java.ownership.Uses;
import atomic.java.program.Touch;
import com.sun.source.tree.ArrayAccessTree;
import com.sun.source.tree.EnhancedForLoopTree;
import com.sun.source.tree.ExpressionTree;
import com.sun.source.tree.LambdaExpressionTree;
import com.sun.source.tree.MemberSelectTree;
import com.sun.source.tree.MethodInvocationTree;
import com.sun.source.tree.Tree;
import com.sun.source.tree.VariableTree;
import java.util.Set;
import java.util.stream.Collectors;
import javax.lang.model.element.Modifier;
import javax.lang.model.element.VariableElement;

/** Of which field a library's object is that a call touches, and what the call does with it, told by its name. */
record Touches(Services services) {
    private static final Set<String> FINDING = Set.of("get", "getOrDefault", "containsKey", "contains", "containsValue");
    private static final Set<String> ADDING = Set.of("putIfAbsent", "computeIfAbsent", "addIfAbsent");
    private static final Set<String> UPDATING = Set.of("accumulate", "getAndUpdate", "updateAndGet", "getAndAccumulate",
        "accumulateAndGet", "compute", "computeIfPresent", "merge");
    private static final Set<String> COMPARING = Set.of("compareAndSet", "weakCompareAndSet", "compareAndExchange",
        "weakCompareAndSetVolatile", "weakCompareAndSetPlain");
    private static final Set<String> LOOKING = Set.of("getPlain", "getAcquire", "getOpaque", "intValue", "longValue",
        "doubleValue", "floatValue", "isEmpty", "peek", "peekFirst", "peekLast", "element", "getFirst", "getLast", "first",
        "last", "size", "length", "mappingCount", "sum", "availablePermits", "remainingCapacity", "iterator", "forEach",
        "stream", "keySet", "values", "entrySet", "toArray", "toString", "charAt", "substring", "indexOf", "firstKey",
        "lastKey", "firstEntry", "lastEntry", "floorKey", "ceilingKey", "floorEntry", "ceilingEntry", "getCount", "isDone",
        "getReference", "getStamp", "clone", "elements", "keys", "elementAt", "firstElement", "lastElement", "lastIndexOf",
        "compareTo", "subSequence", "equals", "hashCode", "reduceValues", "search", "reduce");
    private static final int DEEP = 8;

    /** Notes of a call's place what it touches, where that is known. */
    void note(Tree at) {
        if (at instanceof MethodInvocationTree call && call.getMethodSelect() instanceof MemberSelectTree select) {
            Object object = object(select.getExpression(), 0);
            if (object != null && !(kind(select.getIdentifier().toString(), call) == Touch.Kind.LOOK && isFlag(object))) {
                services.program().touches().put(services.attribution().name(at),
                    new Touch(object, kind(select.getIdentifier().toString(), call), asked(call)));
            }
        }
    }

    /** What a call asks for, as it is written; a function by its place alone, since functions may stand in each other. */
    private String asked(MethodInvocationTree call) {
        return call.getArguments().stream().map(each -> Uses.bare(each) instanceof LambdaExpressionTree
            ? "function at " + services.attribution().start(each) : each.toString()).collect(Collectors.joining(","));
    }

    /** Notes of a call what it does with a collection that code outside has brought; whether it has one. */
    boolean noteBrought(Tree at, boolean write) {
        String type = at instanceof MethodInvocationTree call && call.getMethodSelect() instanceof MemberSelectTree select
            && object(select.getExpression(), 0) instanceof VariableElement field
            ? services.ownership().brought().type(field) : null;
        if (type != null) {
            services.program().touches().put(services.attribution().name(at), new Touch(new Touch.Brought(type),
                write ? Touch.Kind.CHANGE : Touch.Kind.LOOK, ""));
        }
        return type != null;
    }

    /** Whether a field holds a flag that never goes back: where it was seen to be set, a later look tells the same. */
    private boolean isFlag(Object object) {
        return object instanceof VariableElement field && field.getModifiers().contains(Modifier.PRIVATE)
            && field.asType().toString().equals("java.util.concurrent.atomic.AtomicBoolean")
            && services.facts().of(field, "keeps its flag", key -> services.uses().of(key).stream().allMatch(this::keeps));
    }

    private boolean keeps(Tree use) {
        if (!(services.attribution().parent(use) instanceof MemberSelectTree select)
                || !(services.attribution().parent(select) instanceof MethodInvocationTree call)) {
            return services.uses().isTarget(use);
        }
        String arguments = call.getArguments().toString();
        return switch (select.getIdentifier().toString()) {
            case "get" -> true;
            case "set", "getAndSet" -> arguments.equals("true");
            case "compareAndSet" -> arguments.equals("false,true");
            default -> false;
        };
    }

    private Touch.Kind kind(String name, MethodInvocationTree call) {
        if (name.equals("get") && call.getArguments().isEmpty() || LOOKING.contains(name)) {
            return Touch.Kind.LOOK;
        }
        boolean adds = ADDING.contains(name) || adds(name, call) || raises(name, call);
        return FINDING.contains(name) ? Touch.Kind.FIND : adds ? Touch.Kind.ADD
            : addsAlone(name, call) ? Touch.Kind.PUT : UPDATING.contains(name) ? Touch.Kind.UPDATE
            : COMPARING.contains(name) || Attempt.isOfKey(call) ? Touch.Kind.COMPARE : Touch.Kind.CHANGE;
    }

    /** Whether a number becomes the greatest that was seen, or the least: it never goes back. */
    private static boolean raises(String name, MethodInvocationTree call) {
        return (name.equals("accumulateAndGet") || name.equals("getAndAccumulate"))
            && call.getArguments().get(call.getArguments().size() - 1).toString().matches("\\w+::(max|min)");
    }

    private boolean adds(String name, MethodInvocationTree call) {
        return name.equals("put") && call.getMethodSelect() instanceof MemberSelectTree select
            && new Additions(services).adds(call, Set.of(select.getExpression().toString()));
    }

    private boolean addsAlone(String name, MethodInvocationTree call) {
        return name.equals("put") && call.getMethodSelect() instanceof MemberSelectTree select
            && new Additions(services).addsAlone(call, Set.of(select.getExpression().toString()));
    }

    /** The field whose object an expression gives, or a part of that; null where this isn't known. */
    private Object object(ExpressionTree tree, int depth) {
        ExpressionTree bare = Uses.bare(tree);
        if (depth > DEEP) {
            return null;
        } else if (bare instanceof ArrayAccessTree element) {
            return part(object(element.getExpression(), depth + 1));
        } else if (bare instanceof MethodInvocationTree call) {
            return call.getMethodSelect() instanceof MemberSelectTree select
                && services.program().method(services.attribution().element(call)) == null
                ? part(object(select.getExpression(), depth + 1)) : null;
        }
        return services.attribution().element(bare) instanceof VariableElement variable
            ? variable.getKind().isField() ? variable : local(variable, depth) : null;
    }

    private Object local(VariableElement variable, int depth) {
        VariableTree declared = services.uses().declaration(variable);
        if (declared == null || !services.uses().isSettled(variable)) {
            return null;
        } else if (declared.getInitializer() != null) {
            return object(declared.getInitializer(), depth + 1);
        }
        return services.attribution().parent(declared) instanceof EnhancedForLoopTree loop
            ? part(object(loop.getExpression(), depth + 1)) : null;
    }

    private static Object part(Object whole) {
        return whole == null || whole instanceof Touch.Part ? whole : new Touch.Part(whole);
    }
}
