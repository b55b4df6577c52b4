package atomic.java.attribution;

import atomic.java.options.Options;
import atomic.java.options.Refusal;
import java.io.IOException;
import java.io.UncheckedIOException;
import java.nio.file.Files;
import java.nio.file.InvalidPathException;
import java.nio.file.Path;
import java.util.LinkedHashMap;
import java.util.List;
import java.util.Map;
import java.util.stream.Stream;

/** The files that the words of the command line name. */
final class SourceFiles {
    private static final String SUFFIX = ".java";

    private final List<String> words;
    private final Map<Path, String> names = new LinkedHashMap<>();

    SourceFiles(List<String> words) {
        this.words = words;
    }

    /** The files to read, each with its name as the user wrote it; of a folder all its sources. Each counts once. */
    Map<Path, String> names() {
        for (String word : words) {
            try {
                find(word);
            } catch (IOException | UncheckedIOException | InvalidPathException fault) {
                throw cannotRead(word);
            }
        }
        if (names.isEmpty()) {
            throw new Refusal(Options.CANNOT_READ, "no Java source in " + shown(String.join(" ", words)));
        }
        return names;
    }

    private void find(String word) throws IOException {
        Path path = Path.of(word);
        if (word.isEmpty()) {
            throw cannotRead(word);
        } else if (Files.isDirectory(path)) {
            for (Path file : sources(path)) {
                add(file, file.toString());
            }
        } else {
            add(path, word);
        }
    }

    private void add(Path file, String name) throws IOException {
        if (!Files.isReadable(file)) {
            throw cannotRead(name);
        }
        Path real = file.toRealPath();
        if (!real.toString().endsWith(SUFFIX)) {
            throw new Refusal(Options.CANNOT_READ, "cannot read " + shown(name) + ": its name doesn't end in " + SUFFIX);
        }
        names.putIfAbsent(real, shown(name));
    }

    private static Refusal cannotRead(String name) {
        return new Refusal(Options.CANNOT_READ, "cannot read " + shown(name));
    }

    /** A name as lines tell it: whatever it has, it is one word of one line. */
    private static String shown(String name) {
        return name.replaceAll("\\p{Cntrl}", "?");
    }

    /** The sources in a folder and the folders below it. It may be a link itself; those within it aren't followed. */
    private static List<Path> sources(Path folder) throws IOException {
        Path real = folder.toRealPath();
        try (Stream<Path> files = Files.walk(real)) {
            return files.filter(file -> file.toString().endsWith(SUFFIX) && Files.isRegularFile(file))
                .filter(file -> !file.endsWith("module-info.java") && !file.endsWith("package-info.java"))
                .map(file -> folder.resolve(real.relativize(file))).sorted().toList();
        }
    }
}
