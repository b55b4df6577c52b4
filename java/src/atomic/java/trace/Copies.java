package atomic.java.trace;

import atomic.java.attribution.Attribution;
import atomic.java.attribution.SourceText;
import atomic.java.options.Options;
import atomic.java.options.Refusal;
import atomic.java.program.Program;
import atomic.java.skeleton.Method;
import atomic.java.skeleton.Part;
import atomic.java.skeleton.Place;
import com.sun.source.tree.ClassTree;
import com.sun.source.tree.CompilationUnitTree;
import com.sun.source.tree.MethodTree;
import com.sun.source.util.TreeScanner;
import java.io.IOException;
import java.nio.file.Files;
import java.nio.file.Path;
import java.util.HashSet;
import java.util.List;
import java.util.Map;
import java.util.Set;
import java.util.function.Predicate;
import javax.lang.model.element.Element;

/**
 * Writes logged copies of sources ({@code --log FOLDER}), each into the folder of its package. They are compiled and run with the archive
 * of this program in the class path: {@code java -cp .. atomic.trace.Runner CLASS SEED COUNT FOLDER} makes runs, each with its log.
 */
public final class Copies {
    private final Attribution attribution;
    private final Program program;
    private final Predicate<MethodTree> atomic;
    private final Set<Element> classes = new HashSet<>();

    /** Of a program's sources; {@code atomic} says which methods promise to be. */
    public Copies(Program program, Predicate<MethodTree> atomic) {
        this.program = program;
        attribution = program.attribution();
        this.atomic = atomic;
        attribution.units().forEach(unit -> new TreeScanner<Void, Void>() {
            @Override
            public Void visitClass(ClassTree tree, Void nothing) {
                classes.add(attribution.element(tree));
                return super.visitClass(tree, nothing);
            }
        }.scan(unit, null));
    }

    /** Writes them all, and the skeleton that was judged, with the looks that don't count where another place is next, and the helpers. */
    public void write(String folder, List<Method> skeleton, Map<Place, Place> repeats, Set<Place> helpers) {
        try {
            Set<Place> singles = singles(skeleton);
            for (CompilationUnitTree unit : attribution.units()) {
                write(unit, Path.of(folder), singles);
            }
            Files.write(Path.of(folder, "skeleton.txt"), new SkeletonText(skeleton, repeats, helpers, program.lent()).lines());
        } catch (IOException | java.nio.file.InvalidPathException fault) {
            throw new Refusal(Options.CANNOT_WRITE, "cannot write into " + folder);
        }
    }

    /** Where a library's method is called that is one step by its object and its function, whatever the table says of others. */
    private static Set<Place> singles(List<Method> skeleton) {
        Set<Place> singles = new HashSet<>();
        Set<Place> others = new HashSet<>();
        skeleton.forEach(method -> gather(method.body(), singles, others));
        singles.removeAll(others);
        return singles;
    }

    private static void gather(Part part, Set<Place> singles, Set<Place> others) {
        if (part instanceof Part.Call call && call.place() != null) {
            (call.target().body() instanceof Part.Access ? singles : others).add(call.place());
        }
        part.parts().forEach(each -> gather(each, singles, others));
    }

    private void write(CompilationUnitTree unit, Path folder, Set<Place> singles) throws IOException {
        SourceText source = attribution.source(unit);
        LoggedCopy copy = new LoggedCopy(attribution, program.library(), classes, source.text(), atomic, singles);
        String named = unit.getPackageName() == null ? "" : unit.getPackageName().toString().replace('.', '/');
        Path path = folder.resolve(named).resolve(Path.of(source.file()).getFileName()).toAbsolutePath();
        if (attribution.isSource(path)) {
            throw new Refusal(Options.CANNOT_WRITE, "cannot write into " + folder + ": a source would be lost");
        }
        Files.createDirectories(path.getParent());
        Files.writeString(path, copy.between(0, source.text().length(), List.copyOf(unit.getTypeDecls())));
    }
}
