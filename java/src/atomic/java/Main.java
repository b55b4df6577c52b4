package atomic.java;

import atomic.java.driver.Run;
import atomic.java.options.Options;
import atomic.java.options.Refusal;
import java.io.FileDescriptor;
import java.io.FileOutputStream;
import java.io.IOException;
import java.io.OutputStream;
import java.nio.charset.StandardCharsets;

/** Says of Java sources whether the methods that promise to be atomic are. */
public final class Main {

    /** The bytes of a stack, since sources may be nested deeply. */
    public static final long STACK = 512L << 20;

    private Main() { }

    /** Runs on a thread with a large stack, since sources may be nested deeply. */
    public static void main(String[] words) throws InterruptedException {
        int[] status = {Options.FAULT};
        Thread worker = new Thread(null, () -> status[0] = run(words), "atomic-java", STACK);
        worker.start();
        worker.join();
        System.exit(status[0]);
    }

    private static int run(String[] words) {
        StringBuilder answer = new StringBuilder();
        int status;
        try {
            status = answer(words, answer);
        } catch (Refusal refusal) {
            answer.append(refusal.getMessage()).append('\n');
            status = refusal.status();
        } catch (OutOfMemoryError | StackOverflowError fault) {
            answer.setLength(0);
            answer.append("the sources are too large: memory ran out\n");
            status = Options.NO_MEMORY;
        } catch (RuntimeException | Error fault) {
            answer.setLength(0);
            answer.append("atomic-java has a fault, and gives no answer: ").append(fault).append('\n');
            fault.printStackTrace();
            status = Options.FAULT;
        }
        return write(answer, status);
    }

    private static int answer(String[] words, StringBuilder answer) {
        Options options = Options.of(words);
        if (options.question() != null) {
            String version = Main.class.getPackage().getImplementationVersion();
            answer.append(options.question().equals("--help") ? Options.HELP
                : "atomic-java " + (version == null ? "of a checkout" : version)).append('\n');
            return 0;
        }
        if (ModuleLayer.boot().findModule("jdk.compiler").isEmpty()) {
            throw new Refusal(Options.NO_CHECKER, "atomic-java wants a JDK, version 17 or later: this Java has no javac");
        }
        return new Run(options).judge(answer);
    }

    private static int write(StringBuilder answer, int status) {
        try (OutputStream out = new FileOutputStream(FileDescriptor.out)) {
            out.write(answer.toString().getBytes(StandardCharsets.UTF_8));
            return status;
        } catch (IOException fault) {
            System.err.println("cannot write the answer: " + fault.getMessage());
            return Options.CANNOT_WRITE;
        }
    }
}
