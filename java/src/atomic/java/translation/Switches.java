package atomic.java.translation;

import atomic.java.skeleton.Part;
import com.sun.source.tree.CaseTree;
import com.sun.source.tree.ExpressionTree;
import com.sun.source.tree.StatementTree;
import com.sun.source.tree.Tree;
import com.sun.source.util.TreeScanner;
import java.util.ArrayList;
import java.util.List;

/** The cases of a {@code switch}: one of them, or, where one falls through, it and then the next. */
final class Switches {
    private final Services services;
    private final Body body;

    Switches(Services services, Body body) {
        this.services = services;
        this.body = body;
    }

    /** Emits the cases. */
    void cases(List<? extends CaseTree> cases) {
        cases.forEach(this::label);
        List<Part> alternatives = new ArrayList<>();
        List<Part> chain = new ArrayList<>();
        for (CaseTree each : cases) {
            Part part = body.collect(() -> one(each));
            boolean falls = each.getCaseKind() == CaseTree.CaseKind.STATEMENT && !ends(each);
            chain.add(part);
            if (!falls) {
                alternatives.add(sequence(chain));
                chain.clear();
            }
        }
        alternatives.add(sequence(chain));
        alternatives.removeIf(Part::isNothing);
        body.emit(Dispatch.either(alternatives));
    }

    /**
     * What a case names and asks before it is taken: the names of its pattern, and the test behind {@code when}, which is asked
     * also where a later case is taken in the end. Java 17 has no name for that test: it is what stands in a case and is neither
     * a label nor its body.
     */
    private void label(CaseTree each) {
        new TreeScanner<Void, Void>() {
            @Override
            public Void scan(Tree tree, Void nothing) {
                if (tree == each) {
                    return super.scan(tree, nothing);
                } else if (tree == null || tree == each.getBody() || tree instanceof StatementTree) {
                    return null;
                } else if (tree instanceof ExpressionTree test) {
                    Part part = body.collect(() -> new Expressions(services, body).value(test));
                    body.emit(new Part.Either(part, Part.NOTHING));
                } else {
                    new Locals(services, body).declareAll(tree);
                }
                return null;
            }
        }.scan(each, null);
    }

    /** A path may begin at any case of a chain, so each but a single one may be left out. */
    private static Part sequence(List<Part> chain) {
        List<Part> filled = chain.stream().filter(each -> !each.isNothing()).toList();
        return filled.size() == 1 ? filled.get(0)
            : Part.sequence(filled.stream().map(each -> (Part) new Part.Either(each, Part.NOTHING)).toList());
    }

    private static boolean ends(CaseTree each) {
        List<? extends StatementTree> statements = each.getStatements();
        return !statements.isEmpty() && Jumps.ends(statements.get(statements.size() - 1));
    }

    private void one(CaseTree each) {
        Statements statements = new Statements(services, body);
        if (each.getCaseKind() == CaseTree.CaseKind.STATEMENT) {
            statements.all(each.getStatements());
            return;
        }
        Tree result = each.getBody();
        if (result instanceof ExpressionTree expression) {
            new Expressions(services, body).value(expression);
        } else if (result instanceof StatementTree statement) {
            statements.one(statement);
        }
    }
}
