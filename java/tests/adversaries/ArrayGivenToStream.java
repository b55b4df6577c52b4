// A stream takes what is in an array, or fills it, and keeps no array, unless a class at hand does.
// judged with: --infer
import java.io.*;

class ArrayGivenToStream {
    private final byte[] bytes = new byte[9];
    private final OutputStream target;

    ArrayGivenToStream(OutputStream target) {
        this.target = target;
    }

    synchronized void flush() throws IOException {
        target.write(bytes, 0, bytes.length);
    }

    /* atomic */ synchronized int ends() { // accepted
        return bytes[0] + bytes[8];
    }

    /* atomic */ synchronized void swap() { // accepted
        byte first = bytes[0];
        bytes[0] = bytes[8];
        bytes[8] = first;
    }
}

class ArrayFilledByStream {
    private final char[] signs = new char[9];

    void fill(Reader source) throws IOException { // refused: it is filled without the lock
        source.read(signs, 0, signs.length);
    }

    synchronized void swap() {
        char first = signs[0];
        signs[0] = signs[8];
        signs[8] = first;
    }

    /* atomic */ synchronized int ends() { // accepted
        return signs[0] + signs[8];
    }
}

class ArrayGivenToWriter {
    private final char[] signs = new char[9];

    static class Keeping extends Writer {
        static volatile char[] last;

        @Override
        public void write(char[] given, int from, int count) {
            last = given;
        }

        @Override
        public void flush() { }

        @Override
        public void close() { }
    }

    synchronized void flush(Writer target) throws IOException {
        target.write(signs, 0, signs.length);
    }

    synchronized void swap() {
        char first = signs[0];
        signs[0] = signs[8];
        signs[8] = first;
    }

    /* atomic */ synchronized int ends() { // refused: a writer at hand keeps what it is given
        return signs[0] + signs[8];
    }
}
