// timedWait gives the lock back in the middle, as wait does.
import java.util.concurrent.*;

class TimedWait {
    @GuardedBy("this") private int v;

    /* atomic */ synchronized void f() throws InterruptedException { // refused
        v++;
        TimeUnit.SECONDS.timedWait(this, 1);
        v++;
    }
}

@interface GuardedBy {
    String value();
}
