package atomic.java.ownership;

import atomic.java.attribution.Attribution;
import atomic.java.library.Choice;
import atomic.java.program.JavaMethod;
import atomic.java.program.Program;
import com.sun.source.tree.ExpressionTree;
import com.sun.source.tree.LambdaExpressionTree;
import com.sun.source.tree.MemberReferenceTree;
import com.sun.source.tree.MemberSelectTree;
import com.sun.source.tree.MethodInvocationTree;
import com.sun.source.tree.NewClassTree;
import com.sun.source.tree.Tree;
import com.sun.source.tree.VariableTree;
import com.sun.source.util.TreeScanner;
import java.util.LinkedHashSet;
import java.util.List;
import java.util.Set;
import javax.lang.model.element.ElementKind;
import javax.lang.model.element.ExecutableElement;
import javax.lang.model.element.VariableElement;
import javax.lang.model.type.TypeKind;
import javax.lang.model.type.TypeMirror;

/** Where calls take a thing within a field's object, or something that holds it: one part of {@link InnerWays}. */
final class InnerCalls {
    /** What gives in the place of each element what a function makes of it. */
    private static final Set<String> MAPPING = Set.of("map", "mapToObj", "flatMap", "mapMulti", "toMap", "mapping",
        "flatMapping", "toConcurrentMap", "toUnmodifiableMap");

    /** What takes an element out of its collection for good, or puts another one in its place. */
    private static final Set<String> TAKING = Set.of("remove", "poll", "pollFirst", "pollLast", "pollFirstEntry",
        "pollLastEntry", "pop", "removeFirst", "removeLast", "take", "put", "replace", "set");

    private final Program program;
    private final Attribution attribution;
    private final Ownership ownership;
    private final Results results;
    private final InnerWays ways;

    InnerCalls(Program program, Ownership ownership, InnerWays ways) {
        this.program = program;
        this.ownership = ownership;
        this.ways = ways;
        attribution = program.attribution();
        results = new Results(attribution);
    }

    /** A call on the thing, or on what holds it. */
    void receiver(MethodInvocationTree call, MemberSelectTree select, boolean itself) {
        if (!(attribution.element(call) instanceof ExecutableElement symbol)) {
            return;
        } else if (program.method(symbol) != null) {
            if (!itself) {
                ways.byType(call, false);
            }
            return;
        }
        Choice choice = ownership.escape().choose(select, symbol);
        if (itself) {
            if (choice.kind() == Choice.Kind.WRITES) {
                ways.change();
            }
            if (shows(choice) || Views.givesItself(symbol) || results.mentionsEntry(attribution.type(call))) {
                ways.go(call, true);
            }
            entries(call);
            return;
        }
        functions(call).forEach(each -> {
            function(call, each);
            ways.found().given(each);
        });
        call.getArguments().stream().filter(each -> !isCollector(each)).forEach(ways.found()::given);
        String name = symbol.getSimpleName().toString();
        if (name.equals("toArray") && !call.getArguments().isEmpty()) {
            ways.sink(call.getArguments().get(0));
        }
        if (TAKING.contains(name)) {
            ways.found().taken(call);
        } else if (!maps(call)) {
            ways.byType(call, false);
        }
    }

    private boolean isCollector(ExpressionTree tree) {
        return String.valueOf(attribution.type(tree)).startsWith("java.util.stream.Collector<");
    }

    /** Whether what a call gives is made by functions among its arguments, so that these say what it holds. */
    private boolean maps(MethodInvocationTree call) {
        return MAPPING.contains(attribution.element(call).getSimpleName().toString()) || call.getArguments().stream()
            .anyMatch(each -> Uses.bare(each) instanceof MethodInvocationTree inner && attribution.element(inner) != null
                && maps(inner) && program.method(attribution.element(inner)) == null
                && attribution.element(inner).getEnclosingElement().toString().equals("java.util.stream.Collectors"));
    }

    /** A map's entries, which a function is called with, are parts of the map. */
    private void entries(MethodInvocationTree call) {
        for (ExpressionTree each : functions(call)) {
            if (each instanceof LambdaExpressionTree lambda) {
                lambda.getParameters().stream().map(attribution::element).filter(parameter -> parameter != null
                    && results.mentionsEntry(parameter.asType())).forEach(parameter -> ways.follow(parameter, true));
            }
        }
    }

    /** A function that is called with what an object holds. */
    private void function(MethodInvocationTree call, ExpressionTree function) {
        if (function instanceof LambdaExpressionTree lambda) {
            for (VariableTree each : lambda.getParameters()) {
                ways.followByType(attribution.element(each));
            }
        } else if (function instanceof MemberReferenceTree reference) {
            named(call, reference);
        }
    }

    /** What the name of a method does as a function: it keeps what it is given, or gives a part of that. */
    private void named(MethodInvocationTree call, MemberReferenceTree reference) {
        if (!(attribution.element(reference) instanceof ExecutableElement symbol)) {
            return;
        }
        JavaMethod method = program.method(symbol);
        if (method != null) {
            ways.found().lose();
            symbol.getParameters().forEach(ways::followByType);
            if (method.isConstructor() && method.owner().symbol().getKind() == ElementKind.RECORD
                    || !method.isConstructor() && !ownership.givesNew(method)) {
                ways.byTypeOf(symbol.getReturnType(), outermost(call, reference), method.isConstructor());
            }
            return;
        }
        Choice choice = program.library().choose(symbol.getEnclosingElement().asType(), atomic.java.library.Library.key(symbol));
        boolean named = attribution.element(reference.getQualifierExpression()) instanceof VariableElement;
        if (named && choice.kind() != Choice.Kind.READS && choice.kind() != Choice.Kind.PURE) {
            ways.found().lose();
            ways.sink(reference.getQualifierExpression());
        } else if (symbol.getKind() != ElementKind.CONSTRUCTOR && !symbol.getSimpleName().contentEquals("copyOf")
                && !symbol.getSimpleName().contentEquals("clone")) {
            ways.byTypeOf(symbol.getReturnType(), outermost(call, reference), false);
        }
    }

    /** The call that a function is given to, where it stands within an argument, such as a collector. */
    private MethodInvocationTree outermost(MethodInvocationTree call, Tree function) {
        Tree each = attribution.parent(function);
        while (each != call && !(each instanceof MethodInvocationTree)) {
            each = attribution.parent(each);
        }
        return (MethodInvocationTree) each;
    }

    /** What a function gives goes to whatever the call that it is given to gives, or into the map that the call fills. */
    void gives(LambdaExpressionTree lambda, boolean itself) {
        if (!(attribution.parent(lambda) instanceof MethodInvocationTree call)) {
            ways.go(lambda, false);
        } else if (program.method(attribution.element(call)) != null || !attribution.element(call).getSimpleName().toString()
                .startsWith("compute")) {
            ways.byType(call, itself);
        }
    }

    /** The thing, or what holds it, is given to a call. */
    void argument(MethodInvocationTree call, Tree tree, boolean itself) {
        if (!(attribution.element(call) instanceof ExecutableElement symbol)) {
            return;
        }
        Tree bare = tree instanceof ExpressionTree expression ? Uses.bare(expression) : tree;
        int at = call.getArguments().indexOf(tree);
        JavaMethod method = program.method(symbol);
        if (method != null) {
            parameter(method, at, itself, call);
        } else if (bare instanceof LambdaExpressionTree || bare instanceof MemberReferenceTree) {
            captured(call, symbol, bare);
        } else {
            library(call, symbol, tree, itself);
        }
    }

    private void parameter(JavaMethod method, int at, boolean itself, Tree call) {
        List<? extends VariableElement> parameters = method.symbol().getParameters();
        if (at >= parameters.size() || method.symbol().isVarArgs() && at >= parameters.size() - 1) {
            ways.out(call);
            return;
        }
        boolean known = method.tree().getBody() != null;
        ways.lend(parameters.get(at), itself);
        for (JavaMethod each : method.isVirtual() ? program.overriding().of(method) : List.<JavaMethod>of()) {
            known |= each.tree().getBody() != null;
            ways.lend(each.symbol().getParameters().get(at), itself);
        }
        if (!known) {
            ways.out(call);
        }
    }

    /** A function that uses the thing: a stream's stage keeps it, and so does a thread that runs it later. */
    private void captured(MethodInvocationTree call, ExecutableElement symbol, Tree function) {
        Choice choice = ownership.escape().choose(call.getMethodSelect(), symbol);
        if (shows(choice)) {
            ways.go(call, false);
        } else if (!ownership.escape().isCalledAtOnce(function)) {
            ways.out(call);
        }
    }

    private void library(MethodInvocationTree call, ExecutableElement symbol, Tree tree, boolean itself) {
        String name = symbol.getSimpleName().toString();
        Choice choice = ownership.escape().choose(call.getMethodSelect(), symbol);
        List<? extends ExpressionTree> all = call.getArguments();
        if (itself && (choice.fills() || symbol.getEnclosingElement().toString().equals("java.util.Collections"))) {
            ways.change();
        }
        boolean helper = symbol.getEnclosingElement().toString().matches("java.util.(Collections|Arrays)");
        if (!itself && (choice.fills() || helper && symbol.getReturnType().getKind().isPrimitive()
                || helper && symbol.getReturnType().getKind() == TypeKind.VOID)) {
            ways.found().lose();
        }
        if (name.equals("arraycopy") && !itself && all.size() > 2) {
            ways.sink(all.get(2));
        } else if (itself && name.endsWith("All") && all.indexOf(tree) == 0) {
            return;
        } else if (name.equals("fill") || name.equals("addAll") && all.size() > 1 && all.get(0) != tree) {
            ways.sink(all.get(0));
        }
        switch (choice.kind()) {
            case WRITES, STEP, COMPOUND -> {
                if (call.getMethodSelect() instanceof MemberSelectTree select && !name.startsWith("remove")
                        && !name.startsWith("contains") && !name.startsWith("retain")) {
                    ways.sink(select.getExpression());
                }
            }
            case UNKNOWN -> {
                if (choice.keeps()) {
                    ways.out(call);
                }
            }
            default -> result(call, choice, itself);
        }
    }

    private void result(MethodInvocationTree call, Choice choice, boolean itself) {
        if (itself && shows(choice)) {
            ways.go(call, true);
        } else if (!results.keepsNothing(call) || !itself && !results.isValue(call)) {
            ways.byType(call, itself);
        }
    }

    /** An object is made of the thing, or of what holds it. */
    void made(NewClassTree made, Tree tree, boolean itself) {
        JavaMethod constructor = program.method(attribution.element(made));
        TypeMirror type = attribution.type(made);
        int at = made.getArguments().indexOf(tree);
        if (attribution.element(made) instanceof ExecutableElement maker && at >= 0 && at < maker.getParameters().size()
                && ways.isHome(maker.getParameters().get(at))) {
            return;
        }
        if (type != null && program.find(type) != null || made.getClassBody() != null) {
            boolean plain = constructor == null || constructor.owner().symbol().getKind() == ElementKind.RECORD
                || constructor.symbol().isVarArgs() || at < 0 || at >= constructor.symbol().getParameters().size();
            if (!plain) {
                ways.lend(constructor.symbol().getParameters().get(at), itself);
            }
            boolean copies = constructor != null && constructor.owner().symbol().getKind() == ElementKind.RECORD
                && copies(constructor, at);
            if (!copies && (plain || ownership.escape().keeps(constructor.symbol().getParameters().get(at)))) {
                ways.found().lose();
                ways.go(made, false);
            }
        } else if (!itself) {
            ways.byType(made, false);
        } else if (!copiesElements(made)) {
            ways.go(made, false);
        }
    }

    /** Whether a record's own constructor puts a copy in the place of what it is given. */
    private boolean copies(JavaMethod constructor, int at) {
        List<? extends VariableElement> parameters = constructor.symbol().getParameters();
        return at >= 0 && at < parameters.size() && constructor.tree().getBody() != null && ownership.uses()
            .assignments(parameters.get(at)).stream().anyMatch(each -> each.value() != null
                && Ownership.isNew(ownership.fresh(each.value())));
    }

    /** Whether a library's object takes the elements of what it is made of, and not that itself. */
    private boolean copiesElements(NewClassTree made) {
        TypeMirror type = attribution.type(made);
        Choice choice = type == null ? Choice.UNKNOWN : program.library().choose(type, "new");
        boolean collection = type != null && attribution.types().isSubtype(attribution.types().erasure(type),
            attribution.types().erasure(attribution.elements().getTypeElement("java.util.Collection").asType()));
        boolean map = type != null && attribution.types().isSubtype(attribution.types().erasure(type),
            attribution.types().erasure(attribution.elements().getTypeElement("java.util.Map").asType()));
        return collection || map || choice.kind() == Choice.Kind.PURE && !choice.keeps();
    }

    /** The expressions that stand in a call's arguments and are functions. */
    private static Set<ExpressionTree> functions(MethodInvocationTree call) {
        Set<ExpressionTree> found = new LinkedHashSet<>();
        new TreeScanner<Void, Void>() {
            @Override
            public Void visitLambdaExpression(LambdaExpressionTree tree, Void nothing) {
                found.add(tree);
                return null;
            }

            @Override
            public Void visitMemberReference(MemberReferenceTree tree, Void nothing) {
                found.add(tree);
                return null;
            }
        }.scan(call.getArguments(), null);
        return found;
    }

    /** Whether what a choice says of a call is that it shows its object. */
    private static boolean shows(Choice choice) {
        return choice.kind() == Choice.Kind.VIEW || choice.kind() == Choice.Kind.PIPE;
    }
}
