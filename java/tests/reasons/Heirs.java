// judged with: --public --infer
import java.util.ArrayList;
import java.util.List;
import java.util.concurrent.atomic.LongAccumulator;
import java.util.concurrent.locks.Condition;
import java.util.concurrent.locks.Lock;
import java.util.concurrent.locks.ReentrantLock;

/** A method that an heir has in the place of another one, and beside it what else never runs in between. */
public class Heirs {

    public static class Meter {
        private int count;
        private int most;

        public void raise() { // refused: certain: two threads count at once
            count++;
            most = Math.max(most, count);
        }

        public int twice() { // refused: certain: another one may count in between
            return count + count;
        }
    }

    public static final class LockedMeter extends Meter {
        @Override
        public synchronized void raise() { // refused: perhaps: on such an object this one counts alone
            super.raise();
        }
    }

    public static class Step {
        private int count;

        public void run() { // refused: certain: two threads count at once
            count++;
            count--;
        }
    }

    public static final class LockedStep extends Step {
        @Override
        public synchronized void run() { // refused: perhaps: on such an object this one runs alone
            super.run();
        }
    }

    public static final class Room {
        private final List<String> names = new ArrayList<>();

        public synchronized int size() { // accepted
            return names.size();
        }

        public synchronized void add(String name) { // accepted
            names.add(name);
        }

        public List<String> copy() { // refused: perhaps: the room that is made beforehand tells nothing
            List<String> all = new ArrayList<>(size());
            synchronized (this) {
                all.addAll(names);
            }
            return all;
        }

        public int grown() { // refused: certain: the size may be another one
            int before = size();
            synchronized (this) {
                names.add("");
            }
            return before;
        }
    }

    public static final class Pool {
        private final Lock lock = new ReentrantLock();
        private final Condition given = lock.newCondition();
        private final List<String> idle = new ArrayList<>();
        private volatile int limit = 9;

        public String take() throws InterruptedException { // refused: perhaps: a turn that waits has taken nothing
            lock.lock();
            try {
                String name;
                while ((name = next()) == null) {
                    given.await();
                }
                return name;
            } finally {
                lock.unlock();
            }
        }

        private String next() {
            return idle.size() > limit ? null : idle.remove(0);
        }

        public void limit(int more) { // accepted
            limit = more;
        }
    }

    public static final class Peak {
        private final LongAccumulator most = new LongAccumulator(Long::max, 0);

        public void raise(long value) { // refused: perhaps: one cell is changed once
            most.accumulate(value);
        }

        public long most() { // refused: certain: the cells are looked at one by one
            return most.get();
        }
    }

    public static final class Queue {
        private final List<String> names = new ArrayList<>();
        private long put;
        private long taken;
        private long left;

        public synchronized void put(String name) { // accepted
            names.add(name);
            put++;
            left++;
        }

        public synchronized void take() { // accepted
            if (!names.isEmpty()) {
                names.remove(0);
                taken++;
                left--;
            }
        }

        private synchronized long put() {
            return put;
        }

        private synchronized long taken() {
            return taken;
        }

        private synchronized long left() {
            return left;
        }

        public boolean isEmpty() { // refused: perhaps: neither number falls
            return taken() == put();
        }

        public long size() { // refused: certain: nobody ever had this difference
            return put() - taken();
        }

        public boolean isHalf() { // refused: certain: what is left may fall
            return taken() == left();
        }
    }

    public static final class Banner {
        private volatile String text;

        public String text() { // refused: perhaps: each thread makes the same
            String found = text;
            if (found == null) {
                found = "on " + System.getProperty("os.name");
                text = found;
            }
            return found;
        }
    }
}
