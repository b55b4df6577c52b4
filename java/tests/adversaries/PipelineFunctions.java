// A pipeline runs each function of its stages where it ends, also one that somebody brought, and one of a stage that
// stands in another expression.
// judged with: --infer
import java.util.ArrayList;
import java.util.List;
import java.util.function.Function;
import java.util.function.Predicate;
import java.util.stream.Stream;

class PipelineFunctions {
    private final List<String> names = new ArrayList<>();

    /* atomic */ synchronized void add(String name) { // accepted
        names.add(name);
    }

    /* atomic */ synchronized long known() { // accepted
        return names.stream().filter(name -> !name.isEmpty()).map(String::length).count();
    }

    /* atomic */ synchronized long stage(Predicate<String> wanted) { // refused: a function of the caller for one name after the other
        return names.stream().filter(wanted).count();
    }

    /* atomic */ synchronized boolean end(Predicate<String> wanted) { // refused
        return names.stream().anyMatch(wanted);
    }

    /* atomic */ synchronized List<Object> inner(Function<String, Object> change) { // refused
        return names.stream().map(change).filter(each -> each != null).toList();
    }

    /* atomic */ synchronized long kept(Predicate<String> wanted) { // refused: the stage stands in another statement
        Stream<String> some = names.stream().filter(wanted);
        return some.count();
    }

    /* atomic */ synchronized long given(Stream<String> some) { // refused: its stages may run anything
        return some.count();
    }
}

class PipelineOfSteps {
    private final List<Integer> values = new ArrayList<>();
    private volatile int seen;

    /* atomic */ synchronized void add(int value) { // accepted
        values.add(value);
    }

    private boolean see(int value) {
        seen = value;
        return true;
    }

    /* atomic */ synchronized long chained() { // refused: one step for each value
        return values.stream().filter(value -> see(value)).count();
    }

    /* atomic */ synchronized long kept() { // refused: the same, though the stage stands in another statement
        Stream<Integer> some = values.stream().filter(value -> see(value));
        return some.count();
    }

    /* atomic */ synchronized long named() { // refused: the same
        Predicate<Integer> looks = this::see;
        Stream<Integer> some = values.stream();
        return some.filter(looks).count();
    }
}

class PipelineElsewhere {
    private final List<Integer> values = new ArrayList<>();
    private int total;
    private int seen;

    /* atomic */ synchronized void add(int value) { // refused: addAll() lets other threads write the total
        values.add(value);
        total += value;
    }

    /* atomic */ synchronized void addAll() { // refused: other threads run the function, and hold nothing
        values.parallelStream().forEach(value -> total += value);
    }

    synchronized Stream<Integer> later() {
        return values.stream().map(value -> seen += value);
    }

    /* atomic */ synchronized void see() { // refused: what later() gives is run by whoever has it
        seen++;
        seen++;
    }
}

class PipelineInner {
    private final List<List<Integer>> values = new ArrayList<>();
    private volatile int seen;

    /* atomic */ synchronized void add(int value) { // accepted
        values.add(List.of(value));
    }

    private int see(int value) {
        seen = value;
        return value;
    }

    /* atomic */ synchronized long inner() { // refused: the inner stages run with the outer ones
        return values.stream().flatMap(all -> all.stream().map(value -> see(value))).count();
    }

    private Stream<Integer> seen(List<Integer> all) {
        return all.stream().map(value -> see(value));
    }

    /* atomic */ synchronized long named() { // refused: so do those of a method that gives a stream
        return values.stream().flatMap(this::seen).count();
    }
}

class PipelineIterator {
    private final List<Integer> values = new ArrayList<>();

    /* atomic */ synchronized void add(int value) { // refused: an iterator over the stream reads the list without the lock
        if (!values.contains(value)) {
            values.add(value);
        }
    }

    synchronized java.util.Iterator<Integer> walk() {
        return values.stream().iterator();
    }
}

class FunctionsKept {
    private final List<Runnable> tasks = new ArrayList<>();
    private int runs;

    synchronized void keep() {
        tasks.add(() -> runs++);
    }

    synchronized List<Runnable> kept() {
        return List.of(() -> runs++);
    }

    /* atomic */ synchronized void run() { // refused: what is kept runs later, without the lock
        runs++;
        runs++;
    }
}

class FunctionsOfMatcher {
    private volatile int seen;

    private String see(String text) {
        seen = text.length();
        return text;
    }

    /* atomic */ String replace(String text) { // refused: one step for each place that matches
        return java.util.regex.Pattern.compile("a").matcher(text).replaceAll(found -> see(found.group()));
    }

    /* atomic */ String plain(String text) { // accepted
        return java.util.regex.Pattern.compile("a").matcher(text).replaceAll(found -> found.group() + "b");
    }
}
