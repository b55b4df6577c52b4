package atomic.java.attribution;

import atomic.java.options.Options;
import atomic.java.options.Refusal;
import com.sun.source.tree.AnnotationTree;
import com.sun.source.tree.CompilationUnitTree;
import com.sun.source.tree.IdentifierTree;
import com.sun.source.tree.ImportTree;
import com.sun.source.tree.MemberSelectTree;
import com.sun.source.tree.Tree;
import com.sun.source.util.JavacTask;
import com.sun.source.util.SourcePositions;
import com.sun.source.util.TreeScanner;
import com.sun.source.util.Trees;
import java.io.File;
import java.io.IOException;
import java.io.StringWriter;
import java.nio.charset.StandardCharsets;
import java.nio.file.Path;
import java.util.ArrayList;
import java.util.HashMap;
import java.util.HashSet;
import java.util.LinkedHashMap;
import java.util.List;
import java.util.Locale;
import java.util.Map;
import java.util.Set;
import java.util.regex.Pattern;
import java.util.stream.Collectors;
import javax.tools.Diagnostic;
import javax.tools.DiagnosticCollector;
import javax.tools.JavaCompiler;
import javax.tools.JavaFileObject;
import javax.tools.StandardJavaFileManager;
import javax.tools.ToolProvider;

/** Runs javac over the sources up to the point where each name and type is known. */
public final class Javac {
    /** How the codes begin by which javac says that a name means nothing. */
    private static final List<String> UNKNOWN = List.of("compiler.err.cant.resolve", "compiler.err.doesnt.exist");
    private static final Pattern FAULT = Pattern.compile("[\\w.$]+(Error|Exception|Failure)\\b");

    private final Options options;

    public Javac(Options options) {
        this.options = options;
    }

    /** The attributed sources, or a refusal with javac's own errors. */
    public Attribution attribute() {
        JavaCompiler compiler = ToolProvider.getSystemJavaCompiler();
        DiagnosticCollector<JavaFileObject> told = new DiagnosticCollector<>();
        StandardJavaFileManager manager = compiler.getStandardFileManager(told, null, StandardCharsets.UTF_8);
        Map<Path, String> names = new SourceFiles(options.files()).names();
        StringWriter ownFaults = new StringWriter();
        JavacTask task = task(compiler, manager, told, ownFaults, names.keySet());
        Map<CompilationUnitTree, SourceText> sources = new LinkedHashMap<>();
        try {
            for (CompilationUnitTree unit : task.parse()) {
                sources.put(unit, new SourceText(names.get(manager.asPath(unit.getSourceFile())),
                    unit.getSourceFile().getCharContent(true).toString()));
            }
            task.analyze();
        } catch (IOException | RuntimeException fault) {
            refuseErrors(told, task, sources);
            throw refusal(fault.toString());
        }
        refuseErrors(told, task, sources);
        if (!ownFaults.toString().isBlank()) {
            throw refusal(ownFaults.toString());
        }
        return new Attribution(task, sources);
    }

    private JavacTask task(JavaCompiler compiler, StandardJavaFileManager manager,
            DiagnosticCollector<JavaFileObject> told, StringWriter ownFaults, Set<Path> files) {
        try {
            return (JavacTask) compiler.getTask(ownFaults, manager, told, words(), null,
                manager.getJavaFileObjectsFromPaths(files));
        } catch (IllegalArgumentException fault) {
            throw new Refusal(Options.USAGE, "javac refuses the words: " + fault.getMessage().lines().findFirst().orElse(""));
        }
    }

    /**
     * Where javac itself fails, as for sources that are nested too deeply, it throws what happened, or writes it and gives
     * no trees, or ones without types.
     */
    private static Refusal refusal(String happened) {
        if (happened.contains("OutOfMemoryError") || happened.contains("StackOverflowError")) {
            return new Refusal(Options.NO_MEMORY, "the sources are too large: memory ran out");
        }
        return new Refusal(Options.NOT_JAVA, "javac can't read these sources: " + happened.lines()
            .filter(line -> FAULT.matcher(line).lookingAt()).findFirst().orElse(happened.strip()));
    }

    private List<String> words() {
        List<String> words = new ArrayList<>(List.of("-proc:none", "-nowarn", "-Xmaxerrs", "1000",
            "--should-stop=ifError=FLOW", "-XDignore.symbol.file"));
        String own = ownArchive();
        String all = options.classpath().isEmpty() ? own : options.classpath() + File.pathSeparator + own;
        words.addAll(List.of("-classpath", all));
        options.modules().forEach(module -> words.addAll(List.of("--patch-module", module)));
        return words;
    }

    /** The program's own classes, which hold the annotations. */
    private static String ownArchive() {
        return System.getProperty("atomic.annotations", System.getProperty("java.class.path"));
    }

    private void refuseErrors(DiagnosticCollector<JavaFileObject> told, JavacTask task,
            Map<CompilationUnitTree, SourceText> sources) {
        if (told.getDiagnostics().stream().noneMatch(each -> each.getKind() == Diagnostic.Kind.ERROR)) {
            return;
        }
        Map<JavaFileObject, SourceText> texts = new HashMap<>();
        Map<JavaFileObject, List<long[]>> annotations = new HashMap<>();
        sources.forEach((unit, text) -> {
            texts.put(unit.getSourceFile(), text);
            annotations.put(unit.getSourceFile(), annotations(unit, task));
        });
        List<String> lines = new ArrayList<>();
        for (Diagnostic<? extends JavaFileObject> each : told.getDiagnostics()) {
            SourceText text = texts.get(each.getSource());
            boolean named = "compiler.err.class.public.should.be.in.file".equals(each.getCode());
            if (each.getKind() == Diagnostic.Kind.ERROR && !named && !isUnknownAnnotation(each, annotations)) {
                lines.add((text == null ? "" : text.place(each.getPosition()) + ": ") + "error: " + message(each));
            }
        }
        if (!lines.isEmpty()) {
            throw new Refusal(Options.NOT_JAVA, String.join("\n", lines));
        }
    }

    /** What javac says, in one line: which name it can't find stands in its second one. */
    private static String message(Diagnostic<? extends JavaFileObject> told) {
        return told.getMessage(Locale.ENGLISH).lines().map(line -> line.strip().replaceAll("\\s+", " "))
            .filter(line -> !line.isEmpty()).collect(Collectors.joining(", ")).replaceAll("([;:]),", "$1");
    }

    /** Annotations count by their simple names, so one that javac doesn't find is none of its business. */
    private static boolean isUnknownAnnotation(Diagnostic<? extends JavaFileObject> told,
            Map<JavaFileObject, List<long[]>> annotations) {
        return told.getCode() != null && UNKNOWN.stream().anyMatch(told.getCode()::startsWith)
            && annotations.getOrDefault(told.getSource(), List.of()).stream()
                .anyMatch(range -> range[0] <= told.getPosition() && told.getPosition() <= range[1]);
    }

    /** Where annotations stand, and the imports of what annotations alone name. */
    private static List<long[]> annotations(CompilationUnitTree unit, JavacTask task) {
        SourcePositions positions = Trees.instance(task).getSourcePositions();
        List<Tree> found = new ArrayList<>();
        Set<String> others = new HashSet<>();
        new TreeScanner<Void, Void>() {
            @Override
            public Void visitAnnotation(AnnotationTree tree, Void nothing) {
                found.add(tree);
                return null;
            }

            @Override
            public Void visitImport(ImportTree tree, Void nothing) {
                return null;
            }

            @Override
            public Void visitIdentifier(IdentifierTree tree, Void nothing) {
                others.add(tree.getName().toString());
                return null;
            }
        }.scan(unit, null);
        unit.getImports().stream().filter(each -> !each.isStatic() && !others.contains(imported(each))).forEach(found::add);
        return found.stream().map(each -> new long[] {positions.getStartPosition(unit, each),
            positions.getEndPosition(unit, each)}).toList();
    }

    /** The name that an import makes known. */
    private static String imported(ImportTree tree) {
        return tree.getQualifiedIdentifier() instanceof MemberSelectTree member ? member.getIdentifier().toString() : "";
    }
}
