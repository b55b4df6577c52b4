// What a turn before the last one saw is no longer so when the wait is over, and others can tell how many turns there were.
// judged with: --infer
import java.util.*;

class WaitKeeps {
    private boolean full;
    private int value;

    synchronized void fill(int given) {
        full = true;
        value = given;
        notifyAll();
    }

    /* atomic */ synchronized int stale() throws InterruptedException { // refused: it gives what was seen before the wait
        int before = 0;
        while (!full) {
            before = value;
            wait();
        }
        return before;
    }

    /* atomic */ synchronized int inTurn() throws InterruptedException { // refused: so does this
        while (!full) {
            int before = value;
            wait();
            if (full) {
                return before;
            }
        }
        return 0;
    }

    /* atomic */ synchronized int count() throws InterruptedException { // refused: alone it gives 0
        int turns = 0;
        while (!full) {
            turns++;
            wait();
        }
        return turns;
    }

    /* atomic */ synchronized int given() throws InterruptedException { // refused: the same
        for (int turns = 0;; turns++) {
            if (full) {
                return turns;
            }
            wait();
        }
    }

    /* atomic */ synchronized int countInArray() throws InterruptedException { // refused: an array keeps it too
        int[] turns = new int[1];
        while (!full) {
            turns[0]++;
            wait();
        }
        return turns[0];
    }

    /* atomic */ synchronized int listed() throws InterruptedException { // refused: so does a list
        List<Integer> seen = new ArrayList<>();
        while (!full) {
            seen.add(value);
            wait();
        }
        return seen.size();
    }

    /* atomic */ synchronized int countInObject() throws InterruptedException { // refused: so does an object
        Turns turns = new Turns();
        while (!full) {
            turns.count();
            wait();
        }
        return turns.number;
    }

    private static class Turns {
        int number;

        void count() {
            number++;
        }
    }

    /* atomic */ synchronized int asked(String text) throws InterruptedException { // accepted: a text keeps nothing
        while (!full) {
            if (text.isEmpty()) {
                return 0;
            }
            wait();
        }
        return text.length();
    }

    /* atomic */ synchronized int fresh() throws InterruptedException { // accepted
        int found = 0;
        while (!full) {
            wait();
        }
        found = value;
        return found;
    }

    /* atomic */ synchronized int each() throws InterruptedException { // accepted: the last turn looks again
        int found;
        for (;;) {
            found = value;
            if (full) {
                break;
            }
            wait();
        }
        return found;
    }

    /* atomic */ synchronized boolean inTime(long millis) throws InterruptedException { // accepted: a clock may say anything
        long until = System.currentTimeMillis() + millis;
        long left = millis;
        while (!full && left > 0) {
            wait(left);
            left = until - System.currentTimeMillis();
        }
        return left > 0;
    }

    /* atomic */ synchronized int leaves() throws InterruptedException { // accepted: it takes once, and then leaves
        for (;;) {
            if (full) {
                full = false;
                return value;
            }
            wait();
        }
    }

    /* atomic */ synchronized void goesOn() throws InterruptedException { // refused: it writes before it waits again
        for (;;) {
            if (full) {
                full = false;
                continue;
            }
            wait();
        }
    }
}

class LoopsLeft {
    private final int[] values = new int[9];
    private volatile int changes;

    /* atomic */ synchronized boolean once(int wanted) { // accepted: the change is counted once, behind the turns
        for (int k = 0; k < values.length; k++) {
            if (values[k] == wanted) {
                values[k] = 0;
                changes++;
                return true;
            }
        }
        return false;
    }

    /* atomic */ synchronized boolean each(int wanted) { // refused: it is counted each time round
        boolean found = false;
        for (int k = 0; k < values.length; k++) {
            if (values[k] == wanted) {
                changes++;
                found = true;
            }
        }
        return found;
    }

    /* atomic */ synchronized boolean goesOn(int wanted) { // refused: so is this
        for (int k = 0; k < values.length; k++) {
            if (values[k] == wanted) {
                changes++;
                if (k < 5) {
                    continue;
                }
                return true;
            }
        }
        return false;
    }

    /* atomic */ synchronized boolean inner(int wanted) { // refused: it leaves the inner loop alone
        for (int k = 0; k < values.length; k++) {
            for (int l = 0; l < k; l++) {
                if (values[l] == wanted) {
                    changes++;
                    break;
                }
            }
        }
        return false;
    }

    /* atomic */ synchronized boolean caught(int wanted) { // refused: what is thrown is caught within the loop
        for (int k = 0; k < values.length; k++) {
            try {
                if (values[k] == wanted) {
                    changes++;
                    throw new IllegalStateException();
                }
            } catch (IllegalStateException found) {
                values[k] = 0;
            }
        }
        return false;
    }
}
