package atomic.java.ownership;

import atomic.java.attribution.Attribution;
import atomic.java.program.Families;
import atomic.java.program.JavaMethod;
import atomic.java.program.Program;
import com.sun.source.tree.ConditionalExpressionTree;
import com.sun.source.tree.ExpressionTree;
import com.sun.source.tree.LambdaExpressionTree;
import com.sun.source.tree.MemberReferenceTree;
import com.sun.source.tree.NewArrayTree;
import com.sun.source.tree.NewClassTree;
import com.sun.source.tree.ReturnTree;
import com.sun.source.tree.Tree;
import com.sun.source.util.TreeScanner;
import java.util.ArrayList;
import java.util.HashMap;
import java.util.HashSet;
import java.util.List;
import java.util.Map;
import java.util.Set;
import java.util.function.Predicate;
import javax.lang.model.element.Element;
import javax.lang.model.element.ElementKind;
import javax.lang.model.element.ExecutableElement;
import javax.lang.model.element.Modifier;
import javax.lang.model.element.TypeElement;
import javax.lang.model.element.VariableElement;
import javax.lang.model.type.DeclaredType;
import javax.lang.model.type.ExecutableType;
import javax.lang.model.type.TypeMirror;

/**
 * Collections and arrays within a field's collection that are a part of it, such as the lists in a map of lists: each is made
 * for it here, and gets no further than locals, results of helpers and the calls of methods that only use it. An access of
 * such a one is an access of the field's contents. Where a method lets one out that is asked to be atomic, that method is
 * refused, and the others are judged as if nobody touched it in that way.
 */
final class InnerOwners {
    private final Program program;
    private final Attribution attribution;
    private final Ownership ownership;
    private final InnerTypes types;
    private final Predicate<JavaMethod> asked;
    private final Map<Tree, VariableElement> trees = new HashMap<>();
    private final Map<Element, VariableElement> names = new HashMap<>();
    private final Set<Tree> taken = new HashSet<>();

    InnerOwners(Program program, Ownership ownership, Predicate<JavaMethod> asked) {
        this.program = program;
        this.ownership = ownership;
        this.asked = asked;
        attribution = program.attribution();
        types = new InnerTypes(program);
    }

    /** The field whose contents what an expression gives is a part of; null where that isn't known. */
    VariableElement of(Tree tree) {
        return trees.get(tree);
    }

    /** Whether a call takes a thing out for good, which its caller alone has from then on. */
    boolean isTaken(Tree tree) {
        return taken.contains(tree);
    }

    /** The same of a variable, or of what a method gives. */
    Map<Element, VariableElement> names() {
        return names;
    }

    void find() {
        program.classes().forEach(each -> {
            for (Element member : each.symbol().getEnclosedElements()) {
                if (member instanceof VariableElement field && isHome(field)) {
                    types.within(field).stream().filter(types::hasContents).forEach(type -> find(field, type));
                }
            }
        });
    }

    private boolean isHome(VariableElement field) {
        return field.getKind() == ElementKind.FIELD && !Families.isStatic(field) && !Ownership.isOpen(field)
            && !program.options().strict() && program.library().hasContents(field.asType()) && ownership.owns(field)
            && !ownership.isShared(field)
            && ownership.uses().of(field).stream().allMatch(Confinement::isOwn);
    }

    private void find(VariableElement field, TypeMirror type) {
        InnerWays ways = new InnerWays(program, ownership, type, asked).from(field);
        Found found = ways.found();
        boolean told = ways.outs().stream().allMatch(each -> InnerThings.isTold(each, program, ownership, asked));
        boolean mine = found.fields().stream().allMatch(field::equals) && !types.mayBe(field.asType(), type);
        if (!told || found.isLost() || !mine || found.trees().stream().anyMatch(found::isForeign) || !isMade(field, type, found)) {
            return;
        }
        List<Element> all = new ArrayList<>();
        for (Element name : found.names()) {
            if (found.isForeign(name) || !isOnly(name, found)) {
                return;
            }
            all.add(name);
        }
        for (JavaMethod method : found.methods()) {
            if (method.isStatic() || !ownership.sites().results(method).stream().allMatch(each -> isPart(each, found))) {
                return;
            }
            all.add(method.symbol());
        }
        all.forEach(each -> names.put(each, field));
        found.trees().forEach(each -> trees.put(each, field));
        if (found.given().stream().noneMatch(each -> found.trees().contains(Uses.bare(each)) || found.taken().contains(Uses.bare(each)))) {
            taken.addAll(found.taken());
        }
    }

    /** Whether each such thing that is put into the field's object is made for it, or is one of these. */
    private boolean isMade(VariableElement field, TypeMirror type, Found found) {
        boolean begun = ownership.uses().assignments(field).stream().allMatch(each -> each.value() != null
            && isEmpty(Uses.bare(each.value()), type));
        return begun && found.given().stream().allMatch(each -> !holds(each, type) || isPart(each, found));
    }

    /** Whether an expression makes an object without such things, or gives none. */
    private boolean isEmpty(ExpressionTree tree, TypeMirror type) {
        if (tree instanceof NewClassTree made) {
            return made.getClassBody() == null && made.getArguments().stream()
                .noneMatch(each -> types.mayBeOrHold(attribution.type(each), type));
        }
        return tree instanceof NewArrayTree made && made.getInitializers() == null || tree.getKind() == Tree.Kind.NULL_LITERAL;
    }

    /** Whether an argument, or what it gives as a function, may be such a thing or hold one. */
    private boolean holds(ExpressionTree tree, TypeMirror type) {
        Tree bare = Uses.bare(tree);
        boolean function = bare instanceof LambdaExpressionTree || bare instanceof MemberReferenceTree;
        TypeMirror given = function ? result(attribution.type(bare)) : attribution.type(tree);
        return given != null && types.mayBeOrHold(given, type);
    }

    /** What functions of a type give; null where that isn't known. */
    private TypeMirror result(TypeMirror function) {
        return function instanceof DeclaredType declared ? attribution.elements().getAllMembers((TypeElement) declared.asElement())
            .stream().filter(each -> each instanceof ExecutableElement && each.getModifiers().contains(Modifier.ABSTRACT)
                && !each.getSimpleName().contentEquals("equals")).findFirst().map(each ->
                ((ExecutableType) attribution.types().asMemberOf(declared, each)).getReturnType()).orElse(null) : null;
    }

    /** Whether all that a local gets is a part of the field's contents, or is new. */
    private boolean isOnly(Element name, Found found) {
        return ownership.uses().assignments(name).stream().allMatch(each -> each.value() != null && isPart(each.value(), found));
    }

    private boolean isPart(ExpressionTree tree, Found found) {
        ExpressionTree bare = Uses.bare(tree);
        if (bare instanceof LambdaExpressionTree lambda) {
            return lambda.getBody() instanceof ExpressionTree one ? isPart(one, found) : givesParts(lambda, found);
        } else if (bare instanceof ConditionalExpressionTree either) {
            return isPart(either.getTrueExpression(), found) && isPart(either.getFalseExpression(), found);
        } else if (bare instanceof MemberReferenceTree reference) {
            Element symbol = attribution.element(reference);
            boolean ofType = !(attribution.element(reference.getQualifierExpression()) instanceof VariableElement);
            return symbol != null && program.method(symbol) == null && (symbol.getKind() == ElementKind.CONSTRUCTOR || ofType);
        }
        String fresh = ownership.fresh(bare);
        return found.trees().contains(bare)
            || fresh != null && (fresh.equals("null") || Ownership.isNew(fresh));
    }

    private boolean givesParts(LambdaExpressionTree lambda, Found found) {
        boolean[] all = {true};
        new TreeScanner<Void, Void>() {
            @Override
            public Void visitReturn(ReturnTree tree, Void nothing) {
                all[0] &= tree.getExpression() == null || isPart(tree.getExpression(), found);
                return null;
            }

            @Override
            public Void visitLambdaExpression(LambdaExpressionTree inner, Void nothing) {
                return inner == lambda ? super.visitLambdaExpression(inner, nothing) : null;
            }
        }.scan(lambda, null);
        return all[0];
    }
}
