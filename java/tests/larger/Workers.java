package workers;

import atomic.Atomic;
import java.util.ArrayDeque;
import java.util.ArrayList;
import java.util.List;
import java.util.Queue;
import javax.annotation.concurrent.GuardedBy;

/** Threads that take tasks from a queue, and a class above that counts. */
public class Workers extends Counting {
    private final Object lock = new Object();
    @GuardedBy("lock") private final Queue<Runnable> tasks = new ArrayDeque<>();
    @GuardedBy("lock") private int running;
    @GuardedBy("lock") private boolean stopped;
    private final List<Thread> threads = new ArrayList<>();

    public Workers(int count) {
        for (int index = 0; index < count; index++) {
            threads.add(new Thread(this::work));
        }
    }

    public void start() {
        for (Thread thread : threads) {
            thread.start();
        }
    }

    @Atomic
    public boolean submit(Runnable task) {
        synchronized (lock) {
            if (stopped) {
                return false;
            }
            tasks.add(task);
            lock.notify();
            return true;
        }
    }

    @Atomic
    public void stop() {
        synchronized (lock) {
            stopped = true;
            tasks.clear();
            lock.notifyAll();
        }
    }

    @Atomic
    public int waiting() {
        synchronized (lock) {
            return tasks.size() + running;
        }
    }

    private void work() {
        for (Runnable task = next(); task != null; task = next()) {
            try {
                task.run();
            } finally {
                ended();
                count();
            }
        }
    }

    @Atomic
    private Runnable next() {
        synchronized (lock) {
            while (tasks.isEmpty() && !stopped) {
                try {
                    lock.wait();
                } catch (InterruptedException interrupted) {
                    return null;
                }
            }
            if (stopped) {
                return null;
            }
            running++;
            return tasks.remove();
        }
    }

    @Atomic
    private void ended() {
        synchronized (lock) {
            running--;
        }
    }
}

class Counting {
    @GuardedBy("this") private long counted;
    @GuardedBy("this") private long last;

    @Atomic
    protected synchronized long count() {
        last = System.nanoTime();
        return ++counted;
    }

    @Atomic
    public synchronized long counted() {
        return counted;
    }

    @Atomic
    public synchronized long last() {
        return last;
    }
}
