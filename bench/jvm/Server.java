package jvm;

import java.io.BufferedInputStream;
import java.io.BufferedOutputStream;
import java.io.DataInputStream;
import java.io.DataOutputStream;
import java.io.EOFException;
import java.io.FileDescriptor;
import java.io.FileOutputStream;
import java.io.IOException;
import java.nio.charset.StandardCharsets;
import java.util.ArrayList;
import java.util.List;

/**
 * Answers requests on standard input until that ends. Requests and answers are lists of texts: their number, and for
 * each text the number of its bytes and these. The first text of a request is its word:
 *
 * <ul>
 * <li>{@code compile GENERATE NAME TEXT NAME TEXT ..}: compiles the files; for each file its first error, or nothing.
 * With GENERATE {@code yes} the classes can be run from then on, and those of earlier requests no more.
 * <li>{@code plain PACKAGE COUNT}: runs {@code main} and then the first COUNT - 1 started threads, each to its end, all
 * by one thread of the JVM; the text of the state.
 * <li>{@code real PACKAGE}: runs the program as Java does; what it prints.
 * <li>{@code steps PACKAGE THREADS WAITING}: runs the program by real threads, which make their visible steps in the
 * order that THREADS tells; the text of the state, a line for each step, and how the thread WAITING, if one is named,
 * waits for a lock then.
 * </ul>
 */
public final class Server {
    private final DataInputStream input = new DataInputStream(new BufferedInputStream(System.in));
    private final DataOutputStream output =
            new DataOutputStream(new BufferedOutputStream(new FileOutputStream(FileDescriptor.out)));
    private final Compiler compiler = new Compiler();

    public static void main(String[] words) throws Exception {
        new Server().serve();
    }

    private void serve() throws Exception {
        for (List<String> request = read(); request != null; request = read()) {
            write(answer(request));
        }
    }

    private List<String> answer(List<String> request) throws Exception {
        switch (request.get(0)) {
            case "compile":
                return compiler.compile(request.get(1).equals("yes"), request.subList(2, request.size()));
            case "plain":
                return Plain.run(compiler.loader(), request.get(1), Integer.parseInt(request.get(2)));
            case "real":
                return Real.run(compiler.loader(), request.get(1));
            default:
                return Turns.run(compiler.loader(), request.get(1), request.get(2), request.get(3));
        }
    }

    /** The next request; null at the end of the input. */
    private List<String> read() throws IOException {
        int count;
        try {
            count = input.readInt();
        } catch (EOFException end) {
            return null;
        }
        List<String> texts = new ArrayList<>();
        for (int k = 0; k < count; k++) {
            texts.add(new String(input.readNBytes(input.readInt()), StandardCharsets.UTF_8));
        }
        return texts;
    }

    private void write(List<String> texts) throws IOException {
        output.writeInt(texts.size());
        for (String text : texts) {
            byte[] bytes = text.getBytes(StandardCharsets.UTF_8);
            output.writeInt(bytes.length);
            output.write(bytes);
        }
        output.flush();
    }
}
