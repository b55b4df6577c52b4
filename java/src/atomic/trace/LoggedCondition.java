package atomic.trace;

import java.util.Date;
import java.util.concurrent.TimeUnit;
import java.util.concurrent.locks.Condition;
import java.util.concurrent.locks.Lock;

/** A condition of a lock, kept by the scheduler. */
final class LoggedCondition implements Condition {
    private final Scheduler scheduler;
    private final Lock lock;

    LoggedCondition(Scheduler scheduler, Lock lock) {
        this.scheduler = scheduler;
        this.lock = lock;
    }

    @Override
    public void await() {
        scheduler.await(lock, this, false);
    }

    @Override
    public void awaitUninterruptibly() {
        scheduler.await(lock, this, false);
    }

    @Override
    public long awaitNanos(long nanos) {
        scheduler.await(lock, this, true);
        return 0;
    }

    @Override
    public boolean await(long time, TimeUnit unit) {
        scheduler.await(lock, this, true);
        return false;
    }

    @Override
    public boolean awaitUntil(Date deadline) {
        scheduler.await(lock, this, true);
        return false;
    }

    @Override
    public void signal() {
        scheduler.wake(this, false);
    }

    @Override
    public void signalAll() {
        scheduler.wake(this, true);
    }
}
