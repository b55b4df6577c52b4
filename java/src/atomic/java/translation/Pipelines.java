package atomic.java.translation;

import atomic.java.library.Choice;
import atomic.java.ownership.Uses;
import atomic.java.skeleton.Method;
import atomic.java.skeleton.Part;
import com.sun.source.tree.ExpressionTree;
import com.sun.source.tree.LambdaExpressionTree;
import com.sun.source.tree.LiteralTree;
import com.sun.source.tree.MemberReferenceTree;
import com.sun.source.tree.MemberSelectTree;
import com.sun.source.tree.MethodInvocationTree;
import com.sun.source.tree.ReturnTree;
import com.sun.source.tree.Tree;
import com.sun.source.util.TreeScanner;
import javax.lang.model.element.Element;
import javax.lang.model.element.ElementKind;
import javax.lang.model.element.ExecutableElement;
import javax.lang.model.element.TypeElement;
import javax.lang.model.element.VariableElement;
import javax.lang.model.type.TypeMirror;

/**
 * Pipelines: {@code names.stream().filter(f).map(g).toList()} calls its functions where it ends, any number of times, also
 * those of a stage that stands in another statement. Of a stream that comes from elsewhere the stages aren't known.
 */
final class Pipelines {
    private static final String STREAM = "java.util.stream.BaseStream";

    private final Services services;
    private final Body body;

    Pipelines(Services services, Body body) {
        this.services = services;
        this.body = body;
    }

    /** A pipeline that is run, or will be by an iterator: it walks over what it began with, and calls its functions. */
    void run(LibraryCalls.Called called, ExpressionTree before) {
        Part part = body.collect(() -> {
            new Contents(services, body).call(called.object(), false, called.at(), called.shown());
            new Comparisons(services, body).write(called);
            body.over(called.object(), () -> {
                functions(before);
                services.functions().callAll(called.arguments(), body, called.at(), false);
            });
        });
        body.emit(new Part.Repeat(part, services.attribution().name(called.at())));
    }

    /** The functions of the stages of a stream. */
    private void functions(ExpressionTree stream) {
        ExpressionTree tree = stream == null ? null : Uses.bare(stream);
        Element symbol = tree == null ? null : services.attribution().element(tree);
        if (tree == null || !isStream(services.attribution().type(tree))) {
            return;
        } else if (tree instanceof MethodInvocationTree stage && symbol instanceof ExecutableElement method
                && services.program().method(method) == null) {
            stage(stage, method);
        } else if (symbol instanceof VariableElement local && symbol.getKind() == ElementKind.LOCAL_VARIABLE
                && services.uses().isSettled(local) && services.uses().assignments(local).size() == 1) {
            functions(services.uses().assignments(local).get(0).value());
        } else {
            boolean here = symbol instanceof ExecutableElement;
            body.emit(services.doubt(here ? Method.Doubt.ANY : Method.Doubt.OPEN, "the stages of a stream", true, body, tree,
                "unknown call: the stages of this stream aren't known here, and may do anything"));
        }
    }

    /** A stage, or a source: what a library's call makes a stream of is walked over, and calls the functions that it is given. */
    private void stage(MethodInvocationTree stage, ExecutableElement symbol) {
        if (stage.getMethodSelect() instanceof MemberSelectTree select
                && services.ownership().escape().choose(select, symbol).kind() == Choice.Kind.PIPE) {
            functions(select.getExpression());
        }
        stage.getArguments().forEach(this::functions);
        services.functions().callAll(stage.getArguments(), body, stage, false);
    }

    /** The stages of a stream that a function gives, which run with those around it: such a one is that of {@code flatMap}. */
    void givenBy(ExpressionTree function) {
        if (function instanceof LambdaExpressionTree lambda && lambda.getBody() instanceof ExpressionTree given) {
            functions(given);
        } else if (function instanceof LambdaExpressionTree lambda) {
            new TreeScanner<Void, Void>() {
                @Override
                public Void visitLambdaExpression(LambdaExpressionTree inner, Void nothing) {
                    return null;
                }

                @Override
                public Void visitReturn(ReturnTree tree, Void nothing) {
                    functions(tree.getExpression());
                    return null;
                }
            }.scan(lambda.getBody(), null);
        } else if (function instanceof MemberReferenceTree && services.attribution().element(function)
                instanceof ExecutableElement symbol && services.program().method(symbol) != null
                && isStream(symbol.getReturnType())) {
            body.emit(services.doubt(Method.Doubt.OPEN, "the stages of a stream", true, body, function,
                "unknown call: the stages of the streams that this gives aren't known here, and may do anything"));
        }
    }

    /** Whether a call makes a collector, or a part of one, for the pipeline that ends here, which calls its functions. */
    boolean isCollected(Tree at) {
        Element symbol = services.attribution().element(at);
        Tree around = services.attribution().parent(at);
        if (symbol == null || !(around instanceof MethodInvocationTree call) || !call.getArguments().contains(at)
                || !symbol.getEnclosingElement().toString().equals("java.util.stream.Collectors")) {
            return false;
        }
        return call.getMethodSelect() instanceof MemberSelectTree select && select.getIdentifier().contentEquals("collect")
            || isCollected(around);
    }

    /** Whether a call makes a stream of which it isn't said that this thread runs its functions. */
    static boolean mayBeParallel(MethodInvocationTree tree, ExecutableElement symbol) {
        return symbol.getEnclosingElement().toString().equals("java.util.stream.StreamSupport")
            && !(Uses.bare(tree.getArguments().get(tree.getArguments().size() - 1)) instanceof LiteralTree last
                && Boolean.FALSE.equals(last.getValue()));
    }

    boolean isStream(TypeMirror type) {
        TypeElement stream = services.attribution().elements().getTypeElement(STREAM);
        var types = services.attribution().types();
        return type != null && stream != null && !type.getKind().isPrimitive()
            && types.isSubtype(types.erasure(type), types.erasure(stream.asType()));
    }
}
