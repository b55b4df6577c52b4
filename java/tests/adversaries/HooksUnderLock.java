// A hook that is only called where a lock is held, and the methods in its place, hold that lock too.
// judged with: --infer
import java.util.concurrent.locks.Lock;
import java.util.concurrent.locks.ReentrantLock;

class HooksUnderLock {
    abstract static class Base {
        protected final Lock lock = new ReentrantLock();
        protected int count;

        /* atomic */ void run() { // accepted
            lock.lock();
            try {
                count++;
                hook();
            } finally {
                lock.unlock();
            }
        }

        protected abstract void hook();
    }

    static class Heir extends Base {
        private int more;

        @Override
        protected void hook() {
            more++;
            count++;
            more++;
        }

        /* atomic */ int both() { // accepted
            lock.lock();
            try {
                return more + count;
            } finally {
                lock.unlock();
            }
        }
    }
}

class HooksWithoutLock {
    static class Base {
        protected int count;

        /* atomic */ synchronized void run() { // refused
            count++;
            hook();
        }

        /* atomic */ void again() { // refused
            hook();
        }

        protected void hook() {
        }
    }

    static class Heir extends Base {
        @Override
        protected void hook() {
            count++;
            count++;
        }
    }
}

class HooksThatAnybodyCalls {
    static class Base {
        protected int count;

        /* atomic */ synchronized void run() { // refused
            count++;
            hook();
        }

        protected void hook() {
        }
    }

    static class Heir extends Base {
        @Override
        public void hook() {
            count++;
            count++;
        }
    }
}

class HooksOfAnother {
    static class Base {
        protected int count;

        /* atomic */ synchronized void run(Base other) { // refused
            count++;
            other.hook();
        }

        protected void hook() {
        }
    }

    static class Heir extends Base {
        @Override
        protected void hook() {
            count++;
            count++;
        }
    }
}
