package jvm;

/** What the text of a program calls before and behind each of its visible steps. */
public final class Steps {
    private Steps() {}

    /** Before a field of the object is read. */
    public static Object get(Object object, String field) {
        Runner.current().step("get " + Recorded.address(object) + " " + field);
        return object;
    }

    /** Behind the read. */
    public static int gotInt(int value) {
        Runner.current().note(String.valueOf(value));
        return value;
    }

    public static boolean gotBoolean(boolean value) {
        Runner.current().note(String.valueOf(value));
        return value;
    }

    public static Object got(Object value) {
        Runner.current().note(Recorded.address(value));
        return value;
    }

    /** The object whose field will be written when the value is known. */
    public static Object of(Object object) {
        Runner.current().targets.push(Recorded.address(object));
        return object;
    }

    /** Before a field of that object is written. */
    public static int putInt(int value, String field) {
        put(value, field);
        return value;
    }

    public static boolean putBoolean(boolean value, String field) {
        put(value, field);
        return value;
    }

    public static Object put(Object value, String field) {
        Runner runner = Runner.current();
        runner.step("put " + runner.targets.pop() + " " + field + " " + Recorded.address(value));
        return value;
    }

    /** Before a lock is taken. */
    public static Object acquire(Object lock) {
        Runner runner = Runner.current();
        runner.wanted = (Recorded) lock;
        runner.step("acquire " + Recorded.address(lock));
        return lock;
    }

    /** Behind that. */
    public static void acquired() {
        Runner.current().acquired();
    }

    /** Before a lock is given back. */
    public static void release() {
        Runner runner = Runner.current();
        if (!runner.isParked()) {
            runner.step("release " + Recorded.address(runner.taken.peek()));
            runner.taken.pop();
        }
    }

    public static int print(int value) {
        Runner.current().step("print " + value);
        return value;
    }

    public static void start(Runnable target) {
        Runner runner = Runner.current();
        runner.step("start " + Recorded.address(target));
        if (target == null) {
            throw new NullPointerException();
        }
        runner.turns.begin(target, "run");
    }

    /** At the beginning of each method. */
    public static void begin() {
        Runner.current().deepen();
    }

    /** At its end. */
    public static void end() {
        Runner.current().leave();
    }

    /** Keeps a thread that faulted where it is, with its locks, until all is over. */
    public static Error park(Throwable fault) {
        return Runner.current().park(fault);
    }
}
