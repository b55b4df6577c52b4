package jvm;

import java.lang.management.ManagementFactory;
import java.lang.management.ThreadInfo;
import java.util.ArrayList;
import java.util.Arrays;
import java.util.List;

/** Runs a program by real threads, of which each waits before each visible step for its turn. */
final class Turns {
    private static final long MOST_MILLISECONDS = 20_000;
    private static final long LOOK_MILLISECONDS = 200;

    final Course course;
    private final int[] schedule;
    private final List<Runner> runners = new ArrayList<>();
    private final StringBuilder log = new StringBuilder();
    private int place;
    private int moving;
    private boolean isOver;
    private boolean isAborted;
    private String wrong;

    private Turns(Course course, int[] schedule) {
        this.course = course;
        this.schedule = schedule;
    }

    /** The text of the state, a line for each step, and how the thread that is named at the end waits, if one is. */
    static List<String> run(ClassLoader loader, String packageName, String threads, String waiting) throws Exception {
        var words = Arrays.stream(threads.split(" ")).filter(word -> !word.isEmpty());
        int[] schedule = words.mapToInt(Integer::parseInt).toArray();
        Turns turns = new Turns(new Course(loader, packageName), schedule);
        turns.begin(null, "main");
        if (!turns.awaitEnd()) {
            return List.of("the program doesn't end", turns.log.toString(), "");
        }
        String wait = waiting.isEmpty() || turns.wrong != null ? "" : turns.tryToTake(Integer.parseInt(waiting));
        turns.abort();
        String state = turns.wrong == null ? turns.course.state(turns.locks(), turns.threads()) : turns.wrong + "\n";
        return List.of(state, turns.log.toString(), wait);
    }

    /** Begins a thread, which waits before its first step. */
    synchronized void begin(Object target, String method) {
        Runner runner = new Runner(this, runners.size(), target, method);
        runners.add(runner);
        moving++;
        runner.start();
    }

    /** A thread makes no step until it is told to. */
    synchronized void rest(Runner runner, boolean isReady) {
        runner.isReady = isReady;
        moving--;
        goOn();
    }

    /** Gives the turn to the next thread, when no one moves. */
    private void goOn() {
        if (moving > 0 || isOver) {
            return;
        }
        if (place == schedule.length) {
            isOver = true;
        } else if (schedule[place] < runners.size() && runners.get(schedule[place]).isReady) {
            give(runners.get(schedule[place++]));
        } else {
            wrong = "visible step " + (place + 1) + ": thread " + schedule[place] + " has none";
            isOver = true;
        }
        if (isOver) {
            notifyAll();
        }
    }

    private void give(Runner runner) {
        moving++;
        runner.isReady = false;
        runner.wake();
    }

    private synchronized boolean awaitEnd() throws InterruptedException {
        long end = System.currentTimeMillis() + MOST_MILLISECONDS;
        String before = null;
        while (!isOver && System.currentTimeMillis() < end) {
            wait(LOOK_MILLISECONDS);
            String now = isOver ? null : anyWait();
            if (now != null && now.equals(before)) {
                wrong = now;
                isOver = true;
            }
            before = now;
        }
        return isOver;
    }

    /** How some thread waits for a lock, though it was its turn; null where none does. */
    private String anyWait() {
        return runners.stream().map(this::waits).filter(line -> line != null).findFirst().orElse(null);
    }

    /** How the JVM says that the thread waits for a lock of another one; null where it doesn't. */
    private String waits(Runner runner) {
        ThreadInfo told = ManagementFactory.getThreadMXBean().getThreadInfo(runner.getId());
        if (told == null || told.getThreadState() != Thread.State.BLOCKED) {
            return null;
        }
        for (Runner other : runners) {
            if (other.getId() == told.getLockOwnerId()) {
                String lock = Recorded.address(runner.wanted);
                return "thread " + runner.number() + " waits for " + lock + " held by " + other.number();
            }
        }
        return null;
    }

    synchronized boolean isAborted() {
        return isAborted;
    }

    void tell(int number, String step) {
        log.append(number).append(' ').append(step).append('\n');
    }

    /** Adds a value to the line of the last step. */
    void note(String value) {
        log.setLength(log.length() - 1);
        log.append(' ').append(value).append('\n');
    }

    /** Lets a thread go on to a lock that another one holds; how the JVM says that it waits. */
    private String tryToTake(int number) throws InterruptedException {
        Runner runner = runners.get(number);
        synchronized (this) {
            give(runner);
        }
        long end = System.currentTimeMillis() + MOST_MILLISECONDS;
        String line = waits(runner);
        while (line == null && System.currentTimeMillis() < end) {
            Thread.sleep(0, 100_000);
            line = waits(runner);
        }
        return line == null ? "thread " + number + " doesn't wait" : line;
    }

    /** Ends all threads. */
    private void abort() throws InterruptedException {
        synchronized (this) {
            isAborted = true;
        }
        for (Runner runner : runners) {
            runner.wake();
        }
        for (Runner runner : runners) {
            runner.join(MOST_MILLISECONDS);
        }
    }

    private List<String> locks() {
        List<String> lines = new ArrayList<>();
        for (Recorded object : course.ordered()) {
            for (Runner runner : runners) {
                if (runner.held.contains(object)) {
                    String holder = " thread " + runner.number() + " count " + runner.count(object);
                    lines.add(Recorded.address(object) + holder);
                }
            }
        }
        return lines;
    }

    private List<String> threads() {
        List<String> lines = new ArrayList<>();
        runners.forEach(runner -> lines.add(runner.status));
        return lines;
    }
}
