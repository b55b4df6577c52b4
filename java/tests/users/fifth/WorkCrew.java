// judged with: --public --infer
package com.example.fifth;

import java.util.ArrayList;
import java.util.LinkedList;
import java.util.List;
import java.util.concurrent.Callable;

/** A crew of threads that work on a common queue of jobs. */
public class WorkCrew {
    private final LinkedList<Runnable> queue = new LinkedList<Runnable>();
    private final List<Worker> workers = new ArrayList<Worker>();
    private boolean stopped;
    private int busy;
    private volatile int failures;

    public void execute(Runnable job) { // accepted
        synchronized (queue) {
            if (stopped) throw new IllegalStateException("crew has stopped");
            queue.addLast(job);
            queue.notifyAll();
        }
    }

    public void executeAll(List<? extends Runnable> jobs) { // accepted
        synchronized (queue) {
            for (Runnable job : jobs) execute(job);
        }
    }

    public <T> Ticket<T> submit(Callable<T> call) { // accepted
        Ticket<T> t = new Ticket<T>(call);
        execute(t);
        return t;
    }

    public void hire() { // accepted
        synchronized (workers) {
            Worker w = new Worker();
            workers.add(w);
            w.start();
        }
    }

    public int crewSize() { synchronized (workers) { return workers.size(); } } // accepted
    public void growTo(int size) { while (crewSize() < size) hire(); } // refused: fault: check-then-act over two critical sections
    public int pending() { synchronized (queue) { return queue.size(); } } // accepted
    public int busy() { synchronized (queue) { return busy; } } // accepted
    public boolean isIdle() { return pending() == 0 && busy() == 0; } // refused: fault: two critical sections

    public void awaitIdle() throws InterruptedException { // accepted
        synchronized (queue) {
            while (busy > 0 || !queue.isEmpty()) queue.wait();
        }
    }

    public int failures() { return failures; } // accepted

    public List<Runnable> stopNow() { // accepted
        synchronized (queue) {
            stopped = true;
            List<Runnable> rest = new ArrayList<Runnable>(queue);
            queue.clear();
            queue.notifyAll();
            return rest;
        }
    }

    public void finish() throws InterruptedException { // refused: fault: sets `stopped` and then waits (in awaitIdle
        synchronized (queue) {
            stopped = true;
            queue.notifyAll();
            awaitIdle();
        }
    }

    private class Worker extends Thread {
        @Override public void run() { // refused: fault: an endless loop with waits and two critical sections per job
            while (true) {
                Runnable job;
                synchronized (queue) {
                    while (queue.isEmpty()) {
                        if (stopped) return;
                        try { queue.wait(); } catch (InterruptedException e) { return; }
                    }
                    job = queue.removeFirst();
                    busy++;
                }
                try { job.run(); } catch (RuntimeException e) { failures++; }
                synchronized (queue) {
                    busy--;
                    queue.notifyAll();
                }
            }
        }
    }

    public static class Ticket<T> implements Runnable {
        private final Callable<T> call;
        private T result;
        private boolean done, cancelled;
        Ticket(Callable<T> call) { this.call = call; }

        public void run() { // refused: fault: two critical sections with the call in the middle
            synchronized (this) { if (cancelled) return; }
            T value;
            try { value = call.call(); } catch (Exception e) { throw new RuntimeException(e); }
            synchronized (this) { result = value; done = true; notifyAll(); }
        }

        public synchronized boolean cancel() { // accepted
            if (done) return false;
            cancelled = true;
            notifyAll();
            return true;
        }

        public synchronized T get() throws InterruptedException { // accepted
            while (!done && !cancelled) wait();
            return result;
        }
    }
}
