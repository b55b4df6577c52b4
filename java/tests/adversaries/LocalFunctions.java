// A function in a local does its steps where it is called, unless something else is done with it too.
// judged with: --infer
import java.util.ArrayList;
import java.util.List;
import java.util.concurrent.ExecutorService;
import java.util.function.IntPredicate;
import java.util.function.IntUnaryOperator;
import java.util.function.Supplier;
import java.util.stream.IntStream;

class LocalFunctions {
    private final char[] text = new char[9];
    private int count;
    private volatile int seen;

    private int see(int value) {
        seen = value;
        return value;
    }

    /* atomic */ synchronized int called(char wanted) { // accepted
        IntPredicate isWanted = at -> text[at] == wanted;
        int found = 0;
        for (int k = 0; k < text.length; k++) {
            found += isWanted.test(k) ? 1 : 0;
        }
        return found;
    }

    /* atomic */ synchronized long given(char wanted) { // accepted
        IntPredicate isWanted = at -> text[at] == wanted;
        return IntStream.range(0, text.length).filter(isWanted).count();
    }

    /* atomic */ synchronized void runs() { // accepted
        Runnable counts = () -> count++;
        counts.run();
        counts.run();
    }

    /* atomic */ synchronized void steps() { // refused: two calls, two steps
        IntUnaryOperator sees = this::see;
        sees.applyAsInt(1);
        sees.applyAsInt(2);
    }

    /* atomic */ void twice() { // refused: two regions
        Runnable counts = () -> {
            synchronized (this) {
                count++;
            }
        };
        counts.run();
        counts.run();
    }

    /* atomic */ synchronized void inside() { // refused: one step for each turn
        IntUnaryOperator sees = value -> see(value);
        for (int k = 0; k < 9; k++) {
            sees.applyAsInt(k);
        }
    }
}

class LocalFunctionKept {
    private final List<Runnable> tasks = new ArrayList<>();
    private int count;

    /* atomic */ synchronized void keep() { // refused: it is called here, and later without the lock
        Runnable counts = () -> count++;
        counts.run();
        tasks.add(counts);
        count++;
    }
}

class LocalFunctionReturned {
    private int count;

    /* atomic */ synchronized Supplier<Integer> give() { // refused: who gets it calls it without the lock
        Supplier<Integer> counts = () -> ++count;
        counts.get();
        count++;
        return counts;
    }
}

class LocalFunctionInThread {
    private int count;

    /* atomic */ synchronized void start(ExecutorService pool) { // refused: the thread calls it without the lock
        Runnable counts = () -> count++;
        counts.run();
        pool.execute(counts);
        count++;
    }
}

class LocalFunctionInTask {
    private int count;

    /* atomic */ synchronized void start(ExecutorService pool) { // refused: a function that runs later calls it
        Runnable counts = () -> count++;
        counts.run();
        pool.execute(() -> counts.run());
        count++;
    }
}

class LocalFunctionAfterEscape {
    static volatile int[] last;

    /* atomic */ static int sum() { // refused: others know the array when the function looks at it
        int[] made = {1, 2};
        IntUnaryOperator at = k -> made[k]++;
        last = made;
        return at.applyAsInt(0) + at.applyAsInt(1);
    }
}

class LocalFunctionInConstructor {
    static volatile LocalFunctionInConstructor last;
    private volatile int value;

    LocalFunctionInConstructor() {
        Runnable writes = () -> value = 1;
        last = this;
        writes.run();
        writes.run();
    }

    /* atomic */ static Object make() { // refused: others know the object when the function is called
        return new LocalFunctionInConstructor();
    }
}

class LocalFunctionTwice {
    private volatile int seen;
    private int count;

    /* atomic */ synchronized void pick(boolean first) { // refused: it may be either function
        Runnable runs = () -> count++;
        if (first) {
            runs = () -> {
                seen = 1;
                seen = 2;
            };
        }
        runs.run();
    }
}
