package atomic.trace;

import java.util.ArrayList;
import java.util.HashMap;
import java.util.Hashtable;
import java.util.IdentityHashMap;
import java.util.List;
import java.util.Map;
import java.util.Random;
import java.util.Vector;
import java.util.concurrent.Semaphore;
import java.util.function.BooleanSupplier;

/**
 * Lets one thread run at a time. A thread gives its turn away only in calls of this class, so that what happens between two such calls
 * is one action, and the log has the order in which the actions happened. Locks are kept here and not by the machine.
 */
final class Scheduler {

    /** The run is over: no thread can go on, or there were too many steps. */
    static final class Stopped extends Error {
        private static final long serialVersionUID = 1;

        Stopped(String why) {
            super(why, null, false, false);
        }
    }

    /** A thread of the run. */
    static final class Worker {
        final String name;
        final Semaphore turn = new Semaphore(0);
        final List<Object> receivers = new ArrayList<>();
        BooleanSupplier ready = () -> true;
        boolean ended;
        boolean notified;

        Worker(String name) {
            this.name = name;
        }
    }

    /** A lock: who has it, and how often. */
    private static final class Holding {
        Worker owner;
        int count;
    }

    private static final int MOST_STEPS = 20_000;
    private final Random random;
    private final Log log;
    private final List<Worker> workers = new ArrayList<>();
    private final Map<Thread, Worker> byThread = new IdentityHashMap<>();
    private final Map<Object, Holding> locks = new IdentityHashMap<>();
    private final Map<Object, List<Worker>> waiting = new IdentityHashMap<>();
    private final Map<Object, Object> owners = new IdentityHashMap<>();
    private final Map<Worker, String> blocked = new HashMap<>();
    private boolean stopped;
    private int steps;

    Scheduler(long seed, Log log) {
        random = new Random(seed);
        this.log = log;
        add(Thread.currentThread(), "main");
    }

    private synchronized Worker add(Thread thread, String name) {
        Worker worker = new Worker(name);
        workers.add(worker);
        byThread.put(thread, worker);
        return worker;
    }

    /** The thread that calls. */
    synchronized Worker self() {
        Worker worker = byThread.get(Thread.currentThread());
        if (worker == null) {
            throw new Stopped("a thread that no logged call started");
        }
        return worker;
    }

    /** Perhaps another thread goes on. */
    void pause() {
        if (random.nextInt(3) == 0) {
            giveTurn(self(), () -> true, "runs");
        }
        if (stopped || ++steps > MOST_STEPS) {
            stop("too many steps");
        }
    }

    /** Another thread goes on, and this one when it is ready and has its turn. */
    private void giveTurn(Worker self, BooleanSupplier ready, String why) {
        self.ready = ready;
        blocked.put(self, why);
        Worker next = choose();
        if (next == null) {
            stop("no thread can go on: " + blocked.values());
        } else if (next != self) {
            next.turn.release();
            self.turn.acquireUninterruptibly();
        }
        if (stopped) {
            throw new Stopped("stopped");
        }
        self.ready = () -> true;
        blocked.remove(self);
    }

    private Worker choose() {
        List<Worker> able = workers.stream().filter(each -> !each.ended && each.ready.getAsBoolean()).toList();
        return able.isEmpty() ? null : able.get(random.nextInt(able.size()));
    }

    private void stop(String why) {
        stopped = true;
        workers.forEach(each -> each.turn.release());
        throw new Stopped(why);
    }

    boolean isStopped() {
        return stopped;
    }

    /** The lock that a lock of java.util.concurrent counts as: the read lock and the write lock are one. */
    private Object lockOf(Object given) {
        return owners.getOrDefault(given, given);
    }

    /** Says that one lock is a part of another. */
    void isPartOf(Object part, Object whole) {
        owners.put(part, whole);
    }

    void take(String place, Object given) {
        pause();
        Object lock = lockOf(given);
        Worker self = self();
        Holding holding = locks.computeIfAbsent(lock, key -> new Holding());
        if (holding.owner != null && holding.owner != self) {
            giveTurn(self, () -> holding.owner == null, "wants " + log.name(lock));
        }
        holding.owner = self;
        holding.count++;
        log.add(self.name, "take " + log.name(lock), place);
    }

    /** Whether an object takes its own monitor for all that it does. */
    private static boolean takesItsMonitor(Object object) {
        return object instanceof StringBuffer || object instanceof Vector || object instanceof Hashtable
            || object != null && object.getClass().getName().startsWith("java.util.Collections$Synchronized");
    }

    /** A step of an object, which may take its monitor for that. */
    void within(String place, Object lock, Runnable step) {
        if (!takesItsMonitor(lock)) {
            step.run();
            return;
        }
        Worker self = self();
        Holding holding = locks.computeIfAbsent(lock, key -> new Holding());
        if (holding.owner != null && holding.owner != self) {
            giveTurn(self, () -> holding.owner == null, "wants " + log.name(lock));
        }
        log.add(self.name, "take " + log.name(lock), place);
        step.run();
        log.add(self.name, "give " + log.name(lock), place);
    }

    boolean tryTake(String place, Object given) {
        Holding holding = locks.computeIfAbsent(lockOf(given), key -> new Holding());
        if (holding.owner != null && holding.owner != self()) {
            pause();
            return false;
        }
        take(place, given);
        return true;
    }

    void give(String place, Object given) {
        if (stopped) {
            return;
        }
        Object lock = lockOf(given);
        Worker self = self();
        Holding holding = locks.get(lock);
        if (holding == null || holding.owner != self) {
            throw new IllegalMonitorStateException();
        }
        log.add(self.name, "give " + log.name(lock), place);
        if (--holding.count == 0) {
            holding.owner = null;
        }
        pause();
    }

    /** Waits for a condition of a lock; one with a time may end at any moment. */
    void await(Object given, Object condition, boolean timed) {
        Object lock = lockOf(given);
        Worker self = self();
        Holding holding = locks.get(lock);
        if (holding == null || holding.owner != self) {
            throw new IllegalMonitorStateException();
        }
        int count = holding.count;
        for (int k = 0; k < count; k++) {
            log.add(self.name, "give " + log.name(lock), "wait");
        }
        holding.owner = null;
        holding.count = 0;
        self.notified = false;
        waiting.computeIfAbsent(condition, key -> new ArrayList<>()).add(self);
        giveTurn(self, () -> holding.owner == null && (timed || self.notified), "waits for " + log.name(condition));
        waiting.get(condition).remove(self);
        holding.owner = self;
        holding.count = count;
        for (int k = 0; k < count; k++) {
            log.add(self.name, "take " + log.name(lock), "wait");
        }
    }

    void wake(Object condition, boolean all) {
        for (Worker each : List.copyOf(waiting.getOrDefault(condition, List.of()))) {
            if (!each.notified) {
                each.notified = true;
                if (!all) {
                    return;
                }
            }
        }
    }

    void start(String place, Thread thread) {
        Worker self = self();
        Worker started = add(thread, "t" + workers.size());
        Thread real = new Thread(null, () -> run(thread, started), started.name, 1 << 20);
        synchronized (this) {
            byThread.put(real, started);
        }
        real.setDaemon(true);
        real.start();
        log.add(self.name, "start " + started.name, place);
        pause();
    }

    private void run(Thread thread, Worker self) {
        self.turn.acquireUninterruptibly();
        try {
            if (!stopped) {
                thread.run();
            }
        } catch (Stopped over) {
            return;
        } catch (Throwable failed) {
            log.add(self.name, "failed " + failed.getClass().getSimpleName(), "");
        } finally {
            end(self);
        }
    }

    private void end(Worker self) {
        self.ended = true;
        if (stopped) {
            return;
        }
        log.add(self.name, "stop", "");
        Worker next = choose();
        if (next != null) {
            next.turn.release();
        } else if (workers.stream().anyMatch(each -> !each.ended)) {
            stopped = true;
            workers.forEach(each -> each.turn.release());
        }
    }

    void join(String place, Thread thread) {
        Worker self = self();
        Worker other;
        synchronized (this) {
            other = byThread.get(thread);
        }
        giveTurn(self, () -> other.ended, "joins " + other.name);
        log.add(self.name, "join " + other.name, place);
    }
}
