// A library's object that keeps one of the sources runs its methods: each print is many writes of the sink.
// judged with: --infer
import java.io.InputStream;
import java.io.OutputStream;
import java.io.PrintStream;
import java.util.AbstractList;
import java.util.ArrayList;
import java.util.List;
import java.util.Map;
import java.util.Scanner;
import java.util.concurrent.CopyOnWriteArrayList;
import java.util.stream.Collectors;
import java.util.stream.Stream;

class WrappedSinks {
    static class Sink extends OutputStream {
        private int count;

        @Override
        public synchronized void write(int value) {
            count++;
        }

        synchronized int count() {
            return count;
        }
    }

    static class Source extends InputStream {
        private int count;

        @Override
        public synchronized int read() {
            return count++;
        }
    }

    private final Sink sink = new Sink();
    private final Source source = new Source();
    private final PrintStream kept = new PrintStream(sink);

    /* atomic */ void atOnce() { // refused
        new PrintStream(sink).println(1);
    }

    /* atomic */ void inLocal() { // refused
        PrintStream out = new PrintStream(sink, true);
        out.println(1);
    }

    /* atomic */ void inField() { // refused
        kept.println(1);
    }

    /* atomic */ void given(Throwable fault) { // refused
        fault.printStackTrace(new PrintStream(sink));
    }

    /* atomic */ int scanned() { // refused
        return new Scanner(source).nextInt();
    }

    /* atomic */ void standard() { // accepted
        System.out.println(1);
    }
}

class PrintsItself extends PrintStream {
    private int count;

    PrintsItself(OutputStream out) {
        super(out);
    }

    @Override
    public synchronized void write(int value) {
        count++;
    }

    @Override
    public synchronized void write(byte[] values, int from, int length) {
        count += length;
    }

    /* atomic */ void twice() { // refused
        print("a");
    }
}

class ListOfSources extends AbstractList<Integer> {
    private int count;

    @Override
    public synchronized Integer get(int at) {
        return count++;
    }

    @Override
    public synchronized int size() {
        return count;
    }

    /* atomic */ static String joined(ListOfSources list) { // refused
        return "all: " + list;
    }
}

class ComparedElements {
    static class Key {
        private int asked;

        synchronized int ask() {
            return asked++;
        }

        @Override
        public int hashCode() {
            return ask() + ask();
        }

        @Override
        public boolean equals(Object other) {
            return ask() == ask();
        }
    }

    private final CopyOnWriteArrayList<Key> keys = new CopyOnWriteArrayList<>();

    /* atomic */ void addIfAbsent(Key key) { // refused
        keys.addIfAbsent(key);
    }

    /* atomic */ Object set(Key key) { // refused
        return Stream.of(key).collect(Collectors.toSet());
    }

    /* atomic */ Object list(Key key) { // accepted
        return Stream.of(key).collect(Collectors.toList());
    }

    /* atomic */ boolean within(List<List<Key>> all) { // refused
        return all.contains(new ArrayList<Key>());
    }

    /* atomic */ boolean withinMap(Map<String, List<Key>> all, List<Key> one) { // refused
        return all.containsValue(one);
    }
}
