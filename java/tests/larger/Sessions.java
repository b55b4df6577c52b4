package sessions;

import atomic.Atomic;
import javax.annotation.concurrent.GuardedBy;

/** Sessions of a server: static state under the lock of the class, and state of each session under its own. */
public final class Sessions {
    @GuardedBy("Sessions.class") private static int lastNumber;
    @GuardedBy("Sessions.class") private static int most;
    private static volatile boolean stopping;

    private final int number;
    @GuardedBy("this") private String user;
    @GuardedBy("this") private int requests;

    private Sessions(int number) {
        this.number = number;
    }

    @Atomic
    public static synchronized int nextNumber() {
        return ++lastNumber;
    }

    @Atomic
    public static synchronized void record(int open) {
        if (open > most) {
            most = open;
        }
    }

    @Atomic
    public static int most() {
        synchronized (Sessions.class) {
            return most;
        }
    }

    @Atomic
    public static void stop() {
        stopping = true;
    }

    @Atomic
    public static boolean isStopping() {
        return stopping;
    }

    public static Sessions open() {
        return new Sessions(nextNumber());
    }

    @Atomic
    public synchronized void login(String user) {
        if (this.user != null) {
            throw new IllegalStateException("session " + number + " belongs to " + this.user);
        }
        this.user = user;
        requests = 0;
    }

    @Atomic
    public synchronized void logout() {
        user = null;
    }

    @Atomic
    public synchronized boolean request() {
        if (user == null) {
            return false;
        }
        requests++;
        return true;
    }

    @Atomic
    public String describe() {
        synchronized (this) {
            StringBuilder text = new StringBuilder("session ").append(number);
            if (user != null) {
                text.append(" of ").append(user).append(" with ").append(requests).append(" requests");
            }
            return text.toString();
        }
    }
}
