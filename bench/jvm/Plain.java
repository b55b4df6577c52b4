package jvm;

import java.util.ArrayList;
import java.util.List;

/** Runs a program plainly: main to its end, then each started thread to its own, in the order of their starts. */
public final class Plain extends Worker {
    private static final long MOST_MILLISECONDS = 20_000;
    private final int count;
    private final List<Runnable> started = new ArrayList<>();
    private final List<String> threads = new ArrayList<>();
    private int number;
    private Throwable wrong;

    private Plain(Course course, int count) {
        super(course);
        this.count = count;
    }

    static List<String> run(ClassLoader loader, String packageName, int count) throws Exception {
        Plain plain = new Plain(new Course(loader, packageName), count);
        plain.start();
        plain.join(MOST_MILLISECONDS);
        if (plain.isAlive()) {
            return List.of("the program doesn't end");
        }
        return List.of(plain.wrong == null ? plain.course().state(List.of(), plain.threads) : plain.wrong.toString());
    }

    /** Puts a thread behind those that were started before. */
    public static void queue(Runnable target) {
        if (target == null) {
            throw new NullPointerException();
        }
        Plain plain = (Plain) current();
        plain.started.add(target);
        plain.threads.add("ready");
    }

    @Override
    int number() {
        return number;
    }

    @Override
    public void run() {
        try {
            Object main = course().newMain();
            threads.add("ready");
            threads.set(0, Course.call(main, "main"));
            for (number = 1; number < count && number <= started.size(); number++) {
                threads.set(number, Course.call(started.get(number - 1), "run"));
            }
        } catch (ReflectiveOperationException | Error failed) {
            wrong = failed;
        }
    }
}
