package atomic.java.options;

import java.util.ArrayList;
import java.util.List;
import java.util.Set;

/** The words of the command line. */
public final class Options {

    /** The statuses that are no answer about the sources; 0 is accepted, 2 refused. */
    public static final int NOT_JAVA = 1;
    public static final int CANNOT_READ = 6;
    public static final int CANNOT_WRITE = 7;
    public static final int NO_MEMORY = 8;
    public static final int USAGE = 9;
    public static final int TOO_LARGE = 10;
    public static final int NO_CHECKER = 12;
    public static final int FAULT = 13;

    /** What {@code --help} writes. */
    public static final String HELP = String.join("\n",
        "usage: atomic-java [options] FILE..",
        "Says of Java sources, or of all sources in a folder, whether methods marked atomic are.",
        "",
        "  --public              each public method is taken as marked atomic",
        "  --infer               fields without @GuardedBy get the lock that each access of them holds",
        "  --majority            .. that most accesses hold; the others are told: finds bugs, proves nothing",
        "  --strict              what would be told as an assumption counts as compound",
        "  --quiet               assumptions and approximations aren't told",
        "  --classpath PATH      where javac finds the classes that the sources use",
        "  --patch-module M=DIR  handed to javac: the sources belong to module M",
        "  --library FILE        more choices for library classes, looked at first",
        "  --emit FILE           writes the skeleton that was judged",
        "  --explain METHOD      shows the skeleton of METHOD (name, or Class.name) and what was noted of it",
        "  --log FOLDER          writes copies of the sources that log their steps",
        "  --help, --version     this text; the version",
        "  @FILE                 the words that stand in FILE, as javac reads them",
        "",
        "A method is marked by @Atomic or by a comment /* atomic */ before it. One that is found cmpd (compound) may be",
        "interrupted by another thread; one that is found error touches a field without its guard, or calls such a one.",
        "",
        "Status 0: accepted; 2: refused; 1: javac finds errors; 6: a file can't be read; 7: the answer can't be written;",
        "8: memory ran out; 9: faulty words; 10: too many limits of the checker; 12: no JDK, or no atomic_why; 13: a fault",
        "of this program.");

    private static final Set<String> WITH_VALUE = Set.of("--classpath", "--patch-module", "--library", "--emit",
        "--explain", "--log");

    private final List<String> files = new ArrayList<>();
    private final List<String> modules = new ArrayList<>();
    private final List<String> libraries = new ArrayList<>();
    private boolean everyPublic;
    private boolean infer;
    private boolean majority;
    private boolean strict;
    private boolean quiet;
    private String question;
    private String classpath = "";
    private String emit;
    private String explain;
    private String log;

    /** Reads the words, or refuses them. */
    public static Options of(String[] given) {
        List<String> words = WordFiles.expanded(given);
        Options options = new Options();
        boolean onlyFiles = false;
        for (int k = 0; k < words.size(); k++) {
            String word = words.get(k);
            if (onlyFiles || !word.startsWith("-") || word.equals("-")) {
                options.files.add(word);
            } else if (word.equals("--")) {
                onlyFiles = true;
            } else if (WITH_VALUE.contains(word)) {
                k++;
                options.give(word, k < words.size() ? words.get(k) : refuse(word + " wants a value"));
            } else if (word.contains("=") && WITH_VALUE.contains(word.substring(0, word.indexOf('=')))) {
                options.give(word.substring(0, word.indexOf('=')), word.substring(word.indexOf('=') + 1));
            } else {
                options.set(word);
            }
        }
        if (options.question == null && options.files.isEmpty()) {
            refuse("no file is named");
        } else if (options.infer && options.majority) {
            refuse("--infer and --majority exclude each other");
        }
        return options;
    }

    private static String refuse(String why) {
        throw new Refusal(USAGE, why + " (atomic-java --help lists the options)");
    }

    private void set(String word) {
        switch (word) {
            case "--public" -> everyPublic = true;
            case "--infer" -> infer = true;
            case "--majority" -> majority = true;
            case "--strict" -> strict = true;
            case "--quiet" -> quiet = true;
            case "--help", "--version" -> question = word;
            case "-h" -> question = "--help";
            default -> refuse("there is no option " + word);
        }
    }

    private void give(String word, String value) {
        switch (word) {
            case "--classpath" -> classpath = value;
            case "--patch-module" -> modules.add(value);
            case "--library" -> libraries.add(value);
            case "--emit" -> emit = value;
            case "--explain" -> explain = value;
            default -> log = value;
        }
    }

    /** The files and folders, as they stand on the command line. */
    public List<String> files() {
        return files;
    }

    public List<String> modules() {
        return modules;
    }

    public List<String> libraries() {
        return libraries;
    }

    public boolean everyPublic() {
        return everyPublic;
    }

    public boolean infer() {
        return infer;
    }

    public boolean majority() {
        return majority;
    }

    public boolean strict() {
        return strict;
    }

    public boolean quiet() {
        return quiet;
    }

    /** {@code --help} or {@code --version}, or null. */
    public String question() {
        return question;
    }

    public String classpath() {
        return classpath;
    }

    public String emit() {
        return emit;
    }

    public String explain() {
        return explain;
    }

    public String log() {
        return log;
    }
}
