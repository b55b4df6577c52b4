package jvm;

import java.util.List;

/** Runs a program as Java does: its threads are the JVM's, and nothing tells them when. */
final class Real extends ThreadGroup {
    private static final long MOST_MILLISECONDS = 10_000;
    private static final long LOOK_MILLISECONDS = 5;

    private Real() {
        super("program");
    }

    /** An exception ends its thread, and isn't told. */
    @Override
    public void uncaughtException(Thread thread, Throwable thrown) {}

    /** What the program prints. */
    static List<String> run(ClassLoader loader, String packageName) throws Exception {
        Course course = new Course(loader, packageName);
        Object main = course.newMain();
        Real group = new Real();
        Thread first = new Thread(group, () -> callMain(main));
        first.setDaemon(true);
        first.start();
        long end = System.currentTimeMillis() + MOST_MILLISECONDS;
        while (group.activeCount() > 0 && System.currentTimeMillis() < end) {
            Thread.sleep(LOOK_MILLISECONDS);
        }
        return List.of(group.activeCount() > 0 ? "the program doesn't end\n" : course.printed());
    }

    private static void callMain(Object main) {
        try {
            Course.call(main, "main");
        } catch (ReflectiveOperationException failed) {
            throw new IllegalStateException(failed);
        }
    }
}
