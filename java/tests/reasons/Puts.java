// Who puts in only what isn't there takes nothing out, in a run of its own, whether a lock is held or not.
// judged with: --public --infer
import java.util.concurrent.ConcurrentHashMap;
import java.util.concurrent.ConcurrentMap;

public class Puts {
    private static final class Timer {
        private long max;

        synchronized void add(long time) {
            max = Math.max(max, time);
        }

        synchronized long max() {
            return max;
        }
    }

    static class Absent {
        private final ConcurrentMap<String, Timer> timers = new ConcurrentHashMap<>();

        public void time(String name, long time) { // refused: certain: two threads put two timers, and one is lost
            Timer timer = timers.get(name);
            if (timer == null) {
                timer = new Timer();
                timers.put(name, timer);
            }
            timer.add(time);
        }

        public long max(String name) { // refused: perhaps: a timer that was found is never replaced by a whole call
            Timer timer = timers.get(name);
            return timer == null ? 0 : timer.max();
        }
    }

    static class Replaced {
        private final ConcurrentMap<String, Timer> timers = new ConcurrentHashMap<>();

        public void begin(String name) { // accepted
            Timer timer = new Timer();
            timer.add(1);
            timers.put(name, timer);
        }

        public void time(String name, long time) { // refused: perhaps: who begins anew looks at no timer that is there
            Timer timer = timers.get(name);
            if (timer != null) {
                timer.add(time);
            }
        }

        public long max(String name) { // refused: perhaps
            Timer timer = timers.get(name);
            return timer == null ? 0 : timer.max();
        }
    }
}
