package atomic.java.attribution;

import atomic.java.skeleton.Place;
import com.sun.source.tree.ArrayAccessTree;
import com.sun.source.tree.AssignmentTree;
import com.sun.source.tree.BinaryTree;
import com.sun.source.tree.ClassTree;
import com.sun.source.tree.CompilationUnitTree;
import com.sun.source.tree.CompoundAssignmentTree;
import com.sun.source.tree.ConditionalExpressionTree;
import com.sun.source.tree.ExpressionTree;
import com.sun.source.tree.InstanceOfTree;
import com.sun.source.tree.LambdaExpressionTree;
import com.sun.source.tree.LiteralTree;
import com.sun.source.tree.MemberReferenceTree;
import com.sun.source.tree.MemberSelectTree;
import com.sun.source.tree.MethodInvocationTree;
import com.sun.source.tree.MethodTree;
import com.sun.source.tree.NewArrayTree;
import com.sun.source.tree.NewClassTree;
import com.sun.source.tree.PatternTree;
import com.sun.source.tree.Tree;
import com.sun.source.tree.TypeCastTree;
import com.sun.source.tree.UnaryTree;
import com.sun.source.tree.VariableTree;
import com.sun.source.util.JavacTask;
import com.sun.source.util.SourcePositions;
import com.sun.source.util.TreePath;
import com.sun.source.util.TreePathScanner;
import com.sun.source.util.Trees;
import java.io.IOException;
import java.nio.file.Files;
import java.nio.file.Path;
import java.util.ArrayList;
import java.util.IdentityHashMap;
import java.util.List;
import java.util.Map;
import java.util.Set;
import java.util.stream.Collectors;
import javax.lang.model.element.Element;
import javax.lang.model.type.TypeMirror;
import javax.lang.model.util.Elements;
import javax.lang.model.util.Types;

/** What javac says of the sources: the meaning and type of each part of their trees, and where it stands. */
public final class Attribution {
    /** Trees that mean no element, for which javac would look through all trees around them. */
    private static final Set<Class<? extends Tree>> NAMELESS = Set.of(BinaryTree.class, UnaryTree.class,
        LiteralTree.class, AssignmentTree.class, CompoundAssignmentTree.class, ConditionalExpressionTree.class,
        ArrayAccessTree.class, TypeCastTree.class, InstanceOfTree.class, LambdaExpressionTree.class, NewArrayTree.class);

    private final Trees trees;
    private final Types types;
    private final Elements elements;
    private final SourcePositions positions;
    private final List<CompilationUnitTree> units = new ArrayList<>();
    private final Map<Tree, Known> all = new IdentityHashMap<>();
    private final Map<CompilationUnitTree, SourceText> sources = new IdentityHashMap<>();
    private final Map<SourceText, CompilationUnitTree> owners = new IdentityHashMap<>();
    private final Set<Path> files;

    /** What is known of a tree: the one around it, the source that it stands in, its meaning and type or null. */
    private record Known(Tree parent, SourceText source, Element meaning, TypeMirror kind) {
        private static final Known NOTHING = new Known(null, null, null, null);
    }

    /** Of a task that has attributed its sources. */
    public Attribution(JavacTask task, Map<CompilationUnitTree, SourceText> sources) {
        trees = Trees.instance(task);
        types = task.getTypes();
        elements = task.getElements();
        positions = trees.getSourcePositions();
        this.sources.putAll(sources);
        sources.keySet().forEach(units::add);
        files = units.stream().map(unit -> Path.of(unit.getSourceFile().toUri())).collect(Collectors.toSet());
        sources.forEach((unit, text) -> owners.put(text, unit));
        units.sort(java.util.Comparator.comparing(unit -> sources.get(unit).file()));
        units.forEach(unit -> new Collector(unit, sources.get(unit)).scan(new TreePath(unit), null));
    }

    /** Keeps what javac knows of each tree, so that it is found by the tree alone. */
    private final class Collector extends TreePathScanner<Void, Void> {
        private final SourceText source;
        private Tree parent;

        Collector(CompilationUnitTree unit, SourceText source) {
            this.source = source;
            parent = unit;
            all.put(unit, new Known(null, source, null, null));
        }

        @Override
        public Void scan(Tree tree, Void nothing) {
            if (tree == null) {
                return null;
            }
            Tree before = parent;
            keep(tree);
            parent = tree;
            super.scan(tree, nothing);
            parent = before;
            return null;
        }

        private void keep(Tree tree) {
            Element meaning = null;
            TypeMirror kind = null;
            if (tree instanceof ExpressionTree || tree instanceof ClassTree || tree instanceof MethodTree
                    || tree instanceof VariableTree) {
                TreePath path = new TreePath(getCurrentPath(), tree);
                meaning = NAMELESS.contains(tree.getKind().asInterface()) ? null : trees.getElement(path);
                kind = trees.getTypeMirror(path);
            } else if (tree instanceof PatternTree) {
                kind = trees.getTypeMirror(new TreePath(getCurrentPath(), tree));
            }
            all.put(tree, new Known(parent, source, meaning, kind));
        }
    }

    private Known known(Tree tree) {
        return all.getOrDefault(tree, Known.NOTHING);
    }

    public Trees trees() {
        return trees;
    }

    public Types types() {
        return types;
    }

    public Elements elements() {
        return elements;
    }

    public List<CompilationUnitTree> units() {
        return units;
    }

    public SourceText source(CompilationUnitTree unit) {
        return sources.get(unit);
    }

    /** Whether a file is one of the sources, by whatever name. */
    public boolean isSource(Path file) throws IOException {
        return Files.exists(file) && files.contains(file.toRealPath());
    }

    /** The source that a tree stands in. */
    public SourceText source(Tree tree) {
        return known(tree).source();
    }

    /** The tree around a tree, or null. */
    public Tree parent(Tree tree) {
        return known(tree).parent();
    }

    /** What a name, call, class, method or variable means, or null. */
    public Element element(Tree tree) {
        return known(tree).meaning();
    }

    /** The type of an expression or a pattern, or null. */
    public TypeMirror type(Tree tree) {
        return known(tree).kind();
    }

    public long start(Tree tree) {
        return positions.getStartPosition(unit(tree), tree);
    }

    public long end(Tree tree) {
        return positions.getEndPosition(unit(tree), tree);
    }

    private CompilationUnitTree unit(Tree tree) {
        return owners.get(source(tree));
    }

    /** Where a tree begins. */
    public Place place(Tree tree) {
        return source(tree).place(start(tree));
    }

    /** Where the name of a declaration, a member or a call stands. */
    public Place name(Tree tree) {
        return source(tree).place(nameOffset(tree));
    }

    /** The offset of the name of a declaration, a member or a call. */
    public long nameOffset(Tree tree) {
        SourceText text = source(tree);
        if (tree instanceof MethodInvocationTree call) {
            return nameOffset(call.getMethodSelect());
        } else if (tree instanceof MemberSelectTree member) {
            return end(member) - member.getIdentifier().length();
        } else if (tree instanceof MemberReferenceTree reference) {
            return end(reference) - reference.getName().length();
        } else if (tree instanceof NewClassTree made) {
            return start(made.getIdentifier());
        } else if (tree instanceof VariableTree variable) {
            return text.find(variable.getName().toString(), behind(variable.getType(), start(variable)));
        } else if (tree instanceof MethodTree method) {
            boolean constructor = method.getReturnType() == null;
            String name = constructor ? owner(method) : method.getName().toString();
            return text.find(name, behind(constructor ? method.getModifiers() : method.getReturnType(), start(method)));
        } else if (tree instanceof ClassTree declared && !declared.getSimpleName().isEmpty()) {
            return text.find(declared.getSimpleName().toString(), behind(declared.getModifiers(), start(declared)));
        }
        return start(tree);
    }

    private String owner(MethodTree method) {
        return parent(method) instanceof ClassTree declared ? declared.getSimpleName().toString() : "";
    }

    private long behind(Tree tree, long otherwise) {
        long end = tree == null ? -1 : end(tree);
        return end < 0 ? otherwise : end;
    }
}
