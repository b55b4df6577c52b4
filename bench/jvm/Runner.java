package jvm;

import java.util.ArrayDeque;
import java.util.ArrayList;
import java.util.Collections;
import java.util.Deque;
import java.util.List;
import java.util.concurrent.locks.LockSupport;

/** A thread of a program that is run step by step. */
final class Runner extends Worker {
    private static final int MOST_FRAMES = 1000;

    final Turns turns;
    private final int number;
    private final Object target;
    private final String method;

    /** The objects whose fields will be written when the values are known, the innermost first. */
    final Deque<String> targets = new ArrayDeque<>();
    /** The locks that were taken, the last one first. */
    final Deque<Recorded> taken = new ArrayDeque<>();
    /** The lock that was asked for last. */
    Recorded wanted;
    /** The objects whose locks the JVM says that this thread holds, when all is over. */
    List<Recorded> held = Collections.emptyList();
    String status = "ready";
    boolean isReady;
    private boolean isParked;
    private int depth;
    private volatile boolean hasTurn;

    Runner(Turns turns, int number, Object target, String method) {
        super(turns.course);
        this.turns = turns;
        this.number = number;
        this.target = target;
        this.method = method;
    }

    static Runner current() {
        return (Runner) Worker.current();
    }

    @Override
    int number() {
        return number;
    }

    void wake() {
        hasTurn = true;
        LockSupport.unpark(this);
    }

    @Override
    public void run() {
        try {
            Object on = target == null ? course().newMain() : target;
            step("enter " + Recorded.address(on));
            status = "running";
            status = Course.call(on, method);
            turns.rest(this, false);
        } catch (Over over) {
            // it was at rest
        } catch (ReflectiveOperationException | Error failed) {
            status = failed.toString();
            turns.rest(this, false);
        }
    }

    /** Waits for the turn to make this step. */
    void step(String line) {
        turns.rest(this, true);
        await();
        if (turns.isAborted()) {
            throw over(null);
        }
        turns.tell(number, line);
    }

    /** Adds a value to what was told of the last step. */
    void note(String value) {
        turns.note(value);
    }

    private void await() {
        while (!hasTurn) {
            LockSupport.park(turns);
        }
        hasTurn = false;
    }

    /** Keeps a thread that faulted where it is, until all is over. */
    Error park(Throwable fault) {
        if (fault instanceof Over over) {
            return over;
        }
        status = Course.ending(fault);
        isParked = true;
        turns.rest(this, false);
        await();
        return over(null);
    }

    /** Whether the steps that are left aren't made any more. */
    boolean isParked() {
        return isParked || turns.isAborted();
    }

    /** Behind the taking of a lock. */
    void acquired() {
        if (turns.isAborted()) {
            throw over(wanted);
        }
        taken.push(wanted);
    }

    int count(Recorded object) {
        return (int) taken.stream().filter(own -> own == object).count();
    }

    void deepen() {
        if (++depth > MOST_FRAMES) {
            throw new StackOverflowError();
        }
    }

    void leave() {
        depth--;
    }

    /** What ends this thread. What the JVM says of its locks, but for a late one, and of its frames is kept. */
    private Error over(Recorded late) {
        held = new ArrayList<>();
        for (Recorded object : course().ordered()) {
            if (object != late && Thread.holdsLock(object)) {
                held.add(object);
            }
        }
        if (status.equals("running")) {
            status += where();
        }
        return new Over();
    }

    /** The innermost method of the program, and how many of its frames there are. */
    private String where() {
        String front = course().packageName + ".";
        List<StackWalker.StackFrame> frames = StackWalker.getInstance().walk(
                all -> all.filter(frame -> frame.getClassName().startsWith(front)).toList());
        StackWalker.StackFrame innermost = frames.get(0);
        String name = innermost.getClassName().substring(front.length()) + "." + innermost.getMethodName();
        return " " + name + " " + frames.size();
    }
}
