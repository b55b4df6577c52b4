package atomic.java.translation;

import com.sun.source.tree.BlockTree;
import com.sun.source.tree.ClassTree;
import com.sun.source.tree.IfTree;
import com.sun.source.tree.LambdaExpressionTree;
import com.sun.source.tree.StatementTree;
import com.sun.source.tree.SynchronizedTree;
import com.sun.source.tree.Tree;
import com.sun.source.tree.TryTree;
import com.sun.source.util.TreeScanner;
import java.util.List;

/** Which statements end in a jump. */
final class Jumps {

    private Jumps() { }

    /** Whether a statement surely doesn't go on to the next one. */
    static boolean ends(StatementTree statement) {
        if (statement instanceof BlockTree block) {
            return ends(block.getStatements());
        } else if (statement instanceof SynchronizedTree region) {
            return ends(region.getBlock());
        } else if (statement instanceof IfTree branch) {
            return branch.getElseStatement() != null && ends(branch.getThenStatement())
                && ends(branch.getElseStatement());
        } else if (statement instanceof TryTree tried) {
            return tried.getFinallyBlock() != null && ends(tried.getFinallyBlock())
                || ends(tried.getBlock()) && tried.getCatches().stream().allMatch(each -> ends(each.getBlock()));
        }
        return switch (statement.getKind()) {
            case RETURN, THROW, BREAK, CONTINUE, YIELD -> true;
            default -> false;
        };
    }

    private static boolean ends(List<? extends StatementTree> statements) {
        return !statements.isEmpty() && ends(statements.get(statements.size() - 1));
    }

    /** Whether a loop's body surely leaves the loop: its last statement returns or throws, and nothing goes on before. */
    static boolean leaves(StatementTree statement) {
        StatementTree last = statement;
        while (last instanceof BlockTree block && !block.getStatements().isEmpty()) {
            last = block.getStatements().get(block.getStatements().size() - 1);
        }
        boolean leaves = last.getKind() == Tree.Kind.RETURN || last.getKind() == Tree.Kind.THROW
            || last.getKind() == Tree.Kind.BREAK;
        return leaves && !has(statement, Tree.Kind.CONTINUE) && count(statement, Tree.Kind.BREAK)
            <= (last.getKind() == Tree.Kind.BREAK ? 1 : 0);
    }

    /** Whether a jump may lead out of the statements. */
    static boolean mayLeave(List<? extends StatementTree> statements) {
        return statements.stream().anyMatch(each -> has(each, Tree.Kind.RETURN) || has(each, Tree.Kind.BREAK)
            || has(each, Tree.Kind.CONTINUE) || has(each, Tree.Kind.THROW) || has(each, Tree.Kind.YIELD));
    }

    /** Whether a statement has a jump to the next turn of some loop. */
    static boolean goesOn(StatementTree statement) {
        return has(statement, Tree.Kind.CONTINUE);
    }

    private static boolean has(Tree tree, Tree.Kind kind) {
        return count(tree, kind) > 0;
    }

    private static int count(Tree tree, Tree.Kind kind) {
        int[] found = new int[1];
        new TreeScanner<Void, Void>() {
            @Override
            public Void scan(Tree each, Void nothing) {
                if (each != null && each.getKind() == kind) {
                    found[0]++;
                }
                return each instanceof ClassTree || each instanceof LambdaExpressionTree ? null : super.scan(each, nothing);
            }
        }.scan(tree, null);
        return found[0];
    }
}
