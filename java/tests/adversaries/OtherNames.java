// A lock may have two names, and a field's lock may be held under the other one. That it may be so guards nothing.
// judged with: --infer
class OtherNames {
    private final Queue queue = new Queue();
    private final Worker worker = new Worker(new Queue());
    private volatile int seen;

    /* atomic */ void stop() { // refused: the worker has another queue
        synchronized (queue) {
            worker.open = false;
            queue.size++;
            worker.open = true;
        }
    }

    /* atomic */ void twice() { // refused: two looks
        synchronized (queue) {
            if (worker.open) {
                seen = 1;
            }
        }
    }
}

class Worker {
    boolean open = true;
    private final Queue queue;

    Worker(Queue queue) {
        this.queue = queue;
    }

    /* atomic */ boolean isDone() { // refused: what others write without this lock is looked at twice
        synchronized (queue) {
            return !open && queue.size == 0 && !open;
        }
    }
}

class Queue {
    int size;
}

class TwoOwnLocks {
    private final Object one = new Object();
    private final Object other = new Object();
    private int count;

    /* atomic */ void add() { // refused: the other method holds another lock
        synchronized (one) {
            count++;
        }
    }

    /* atomic */ void addMore() { // refused
        synchronized (other) {
            count++;
            count++;
        }
    }
}

class GrowsMeanwhile {
    private final java.util.concurrent.locks.ReentrantLock lock = new java.util.concurrent.locks.ReentrantLock();
    private int count;
    private int most = 4;

    private void grow() {
        lock.unlock();
        int next = 2 * most;
        lock.lock();
        most = next;
    }

    /* atomic */ void add() { // refused: the lock is given back when one thing is done
        lock.lock();
        try {
            count++;
            if (count > most) {
                grow();
            }
            count++;
        } finally {
            lock.unlock();
        }
    }
}

class WalksOverOthers {
    private final java.util.Iterator<Integer> all;

    WalksOverOthers(java.util.List<Integer> given) {
        all = given.iterator();
    }

    /* atomic */ int both() { // refused: others may walk too
        return all.next() + all.next();
    }
}
