package jvm;

/** A thread of the JVM that runs a program's threads: one of them, or plainly all of them. */
abstract class Worker extends Thread {
    static final long STACK = 4L << 20;
    private final Course course;

    Worker(Course course) {
        super(null, null, "worker", STACK);
        this.course = course;
        setDaemon(true);
    }

    static Worker current() {
        return (Worker) Thread.currentThread();
    }

    Course course() {
        return course;
    }

    /** The number of the program's thread that is run now. */
    abstract int number();
}
