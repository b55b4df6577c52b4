package atomic.java.driver;

import atomic.java.options.Options;
import atomic.java.options.Refusal;
import java.io.File;
import java.io.IOException;
import java.io.OutputStream;
import java.nio.charset.StandardCharsets;
import java.nio.file.Files;
import java.nio.file.Path;
import java.util.ArrayList;
import java.util.List;
import java.util.Set;
import java.util.concurrent.ConcurrentHashMap;
import java.util.concurrent.ExecutionException;
import java.util.concurrent.ExecutorService;
import java.util.concurrent.Executors;
import java.util.concurrent.Future;
import java.util.concurrent.TimeUnit;
import java.util.function.Predicate;

/**
 * Runs {@code atomic_why}, the proved program, on texts of skeletons: as many runs at once as there are processors. No
 * rule of atomicity stands in Java.
 */
public final class Checker implements AutoCloseable {

    /** What the program wrote, and its status. */
    public record Answer(int status, List<String> lines) { }

    /** The most bytes that it reads. */
    public static final int MOST_BYTES = 262_144;

    /** Its statuses that are answers. */
    private static final Set<Integer> ANSWERS = Set.of(0, 2, Options.NOT_JAVA, Options.TOO_LARGE);

    /** What it is told to read: a text is handed over as its input, so that no file is left behind, however this ends. */
    private static final String INPUT = "/dev/stdin";

    private final Path program = find();
    private final ExecutorService runs = Executors.newFixedThreadPool(Runtime.getRuntime().availableProcessors());
    private final Set<Process> running = ConcurrentHashMap.newKeySet();

    /** Where this program is stopped by a signal, it leaves no run behind. */
    public Checker() {
        Runtime.getRuntime().addShutdownHook(new Thread(this::stop));
    }

    /** A text that is being judged. */
    public final class Question {
        private final byte[] text;
        private final Future<Answer> explained;
        private final Future<Answer> listed;

        private Question(byte[] text, boolean listed) {
            this.text = text;
            this.explained = runs.submit(() -> answer(text, line -> true));
            this.listed = listed ? list() : null;
        }

        /** Waits for the explanations alone. */
        public Answer explained() {
            return wait(explained);
        }

        /** Waits for what each method is, and asks for it where nobody has. */
        public Answer listed() {
            return wait(listed != null ? listed : list());
        }

        private Future<Answer> list() {
            return runs.submit(() -> answer(text, Checker::isOfMethod, "--all"));
        }

        private Answer wait(Future<Answer> answer) {
            try {
                return answer.get();
            } catch (ExecutionException fault) {
                if (fault.getCause() instanceof Error error) {
                    throw error;
                }
                throw fault.getCause() instanceof Refusal refusal ? refusal
                    : new Refusal(Options.NO_CHECKER, "cannot run " + program + ": " + fault.getCause().getMessage());
            } catch (InterruptedException fault) {
                throw new Refusal(Options.NO_CHECKER, "interrupted while " + program + " ran");
            }
        }
    }

    /** Has a text judged. Its parts are listed at the same time, by a process of its own. */
    public Question ask(byte[] text, boolean listed) {
        return new Question(text, listed);
    }

    /** Whether a line of a list says what a method is. Most are about its parts, and would take most of the memory. */
    private static boolean isOfMethod(String line) {
        return line.endsWith(" 0");
    }

    private Answer answer(byte[] text, Predicate<String> kept, String... options) throws IOException, InterruptedException {
        List<String> words = new ArrayList<>(List.of(program.toString()));
        words.addAll(List.of(options));
        words.add(INPUT);
        Process process = new ProcessBuilder(words).redirectError(ProcessBuilder.Redirect.INHERIT).start();
        running.add(process);
        hand(text, process);
        String told = new String(process.getInputStream().readAllBytes(), StandardCharsets.UTF_8);
        String front = INPUT + ":";
        List<String> lines = told.lines().filter(kept)
            .map(line -> line.startsWith(front) ? line.substring(front.length()) : line).toList();
        int status = process.waitFor();
        running.remove(process);
        if (status == Options.NO_MEMORY) {
            throw new Refusal(status, "the sources are too large: memory ran out in " + program);
        } else if (!ANSWERS.contains(status) || status == Options.NOT_JAVA && told.isEmpty()) {
            throw new Refusal(Options.NO_CHECKER, program + " gives no answer, but status " + status);
        }
        return new Answer(status, lines);
    }

    private static void hand(byte[] text, Process process) {
        try (OutputStream input = process.getOutputStream()) {
            input.write(text);
        } catch (IOException fault) {
            // It ended before it had read all of it: its status says why.
            return;
        }
    }

    private void stop() {
        runs.shutdownNow();
        running.forEach(Process::destroy);
    }

    /** Begins no further run, and ends those that have begun: nobody wants their answers any more. */
    @Override
    public void close() {
        stop();
        try {
            runs.awaitTermination(1, TimeUnit.MINUTES);
        } catch (InterruptedException fault) {
            Thread.currentThread().interrupt();
        }
    }

    /** Named by the environment, or beside this program, or in the path. */
    private static Path find() {
        List<Path> places = new ArrayList<>();
        String named = System.getenv("ATOMIC_WHY");
        if (named != null && !named.isEmpty()) {
            places.add(Path.of(named));
        } else {
            for (String folder : System.getProperty("atomic.beside", "").split(File.pathSeparator)) {
                places.add(Path.of(folder, "atomic_why"));
                places.add(Path.of(folder, "atomic-why-unproved"));
            }
            String path = System.getenv("PATH");
            for (String folder : path == null ? new String[0] : path.split(File.pathSeparator)) {
                places.add(Path.of(folder, "atomic_why"));
            }
        }
        return places.stream().filter(each -> Files.isRegularFile(each) && Files.isExecutable(each)).findFirst()
            .orElseThrow(() -> new Refusal(Options.NO_CHECKER,
                "cannot find atomic_why: name it by ATOMIC_WHY, or put it into the path"));
    }
}
