// judged with: --public --infer
package com.example.second;

import java.util.*;
import java.util.concurrent.Callable;
import java.util.concurrent.Future;
import java.util.concurrent.FutureTask;

/** A small thread pool; everything is guarded by the task list. */
public class WorkerPool {
    private final LinkedList<Runnable> tasks = new LinkedList<Runnable>();
    private final Set<Worker> workers = new HashSet<Worker>();
    private final List<Runnable> doneHooks = new ArrayList<Runnable>();
    private int active;
    private int peak;
    private boolean stopping;

    public WorkerPool(int n) { resize(n); }

    public void execute(Runnable task) { // accepted
        synchronized (tasks) {
            if (stopping) throw new IllegalStateException("stopping");
            tasks.addLast(task);
            tasks.notifyAll();
        }
    }

    public <T> Future<T> submit(Callable<T> job) { // accepted
        FutureTask<T> f = new FutureTask<T>(job);
        execute(f);
        return f;
    }

    public void executeAll(List<? extends Runnable> batch) { // refused: fault: one critical section per task
        for (Runnable task : batch) {
            execute(task);
        }
    }

    public void executeTogether(List<? extends Runnable> batch) { // accepted
        synchronized (tasks) {
            for (Runnable task : batch) execute(task);
        }
    }

    public boolean cancel(Runnable task) { // accepted
        synchronized (tasks) { return tasks.remove(task); }
    }

    public void resize(int n) { // refused: alarm: one critical section
        synchronized (tasks) {
            while (workers.size() < n) {
                Worker w = new Worker();
                workers.add(w);
                w.start();
            }
        }
    }

    public int pending() { synchronized (tasks) { return tasks.size(); } } // accepted
    public int active() { synchronized (tasks) { return active; } } // accepted

    public boolean isIdle() { return pending() == 0 && active() == 0; } // refused: fault: two critical sections

    public boolean isQuiet() { synchronized (tasks) { return isIdle(); } } // accepted

    public int peak() { return peak; } // refused: fault: one look at a field without its lock

    public void awaitQuiet() throws InterruptedException { // accepted
        synchronized (tasks) {
            while (!isIdle()) tasks.wait();
        }
    }

    /** Stops taking tasks, waits until the old ones are done, and forgets the workers. */
    public void close() throws InterruptedException { // refused: fault: stopping is set
        synchronized (tasks) {
            stopping = true;
            tasks.notifyAll();
            awaitQuiet();
            workers.clear();
        }
    }

    public List<Runnable> abort() { // accepted
        List<Runnable> rest;
        synchronized (tasks) {
            stopping = true;
            rest = new ArrayList<Runnable>(tasks);
            tasks.clear();
            tasks.notifyAll();
        }
        return rest;
    }

    public void addDoneHook(Runnable hook) { synchronized (tasks) { doneHooks.add(hook); } } // accepted

    public void runHooks() { for (Runnable hook : doneHooks) hook.run(); } // refused: fault: data race on doneHooks

    private class Worker extends Thread {
        @Override
        public void run() { // refused: fault: a loop of waits, tasks and critical sections
            try {
                for (Runnable task; (task = next()) != null; ) {
                    try { task.run(); } finally { finished(); }
                }
            } catch (InterruptedException e) {
                Thread.currentThread().interrupt();
            }
        }

        private Runnable next() throws InterruptedException {
            synchronized (tasks) {
                while (tasks.isEmpty() && !stopping) tasks.wait();
                if (tasks.isEmpty()) return null;
                if (++active > peak) peak = active;
                return tasks.removeFirst();
            }
        }

        private void finished() { synchronized (tasks) { active--; tasks.notifyAll(); } }
    }
}
