// A method that waits is another one for a caller that holds the lock: that one gives it back in the middle.
// judged with: --infer
class WaitInTwo {
    private boolean full;
    private int count;

    private boolean isFull() {
        synchronized (this) {
            return full;
        }
    }

    /* atomic */ synchronized void put() throws InterruptedException { // accepted
        while (isFull()) {
            wait();
        }
        full = true;
        count++;
        notifyAll();
    }

    /* atomic */ synchronized void take() { // accepted
        full = false;
        count++;
        notifyAll();
    }

    /* atomic */ synchronized void putTwo() throws InterruptedException { // refused: the second one waits behind the first
        put();
        put();
    }

    /* atomic */ synchronized void countAndPut() throws InterruptedException { // refused: it gives the lock back behind a change
        count++;
        put();
    }

    private void handOn() throws InterruptedException {
        put();
    }

    /* atomic */ synchronized void countAndHandOn() throws InterruptedException { // refused: so does this, by another method
        count++;
        handOn();
    }
}

class WaitChanges {
    private boolean full;
    private int looks;

    private synchronized boolean isFull() {
        looks++;
        return full;
    }

    synchronized int looks() {
        return looks;
    }

    /* atomic */ synchronized void put() throws InterruptedException { // refused: each turn counts
        while (isFull()) {
            wait();
        }
        full = true;
    }
}

class WaitOverridden {
    private boolean full;
    int count;

    synchronized void put() throws InterruptedException {
        while (full) {
            wait();
        }
        full = true;
    }

    /* atomic */ synchronized void twice() throws InterruptedException { // refused: the one below waits too
        count++;
        put();
    }

    static class Below extends WaitOverridden {
        @Override
        synchronized void put() throws InterruptedException {
            while (count > 9) {
                wait();
            }
            count++;
        }
    }
}
