package atomic.trace;

import java.util.List;
import java.util.concurrent.TimeUnit;
import java.util.concurrent.locks.Condition;
import java.util.concurrent.locks.Lock;
import java.util.concurrent.locks.ReadWriteLock;
import java.util.concurrent.locks.ReentrantReadWriteLock;
import java.util.concurrent.locks.StampedLock;

/**
 * What a logged copy of a source calls at each step. A field is read as {@code Trace.read(Trace.at(..), Trace.on(object).field)} and
 * written as {@code Trace.wrote(Trace.at(..), Trace.on(object).field = value)}: the value goes through, and the line of the log is
 * written before another thread has its turn.
 */
public final class Trace {

    /** Where a step stands in the source, what it touches, and on which object; without one, on the last that {@code on} was given. */
    public record At(String place, String field, Object receiver) { }

    /** A lock that is held, or a method that is inside, until it is closed. */
    public interface Held extends AutoCloseable {
        @Override
        void close();
    }

    private static Scheduler scheduler;
    private static Log log;

    private Trace() { }

    static void begin(Scheduler scheduler, Log log) {
        Trace.scheduler = scheduler;
        Trace.log = log;
    }

    private static Scheduler.Worker self() {
        return scheduler.self();
    }

    public static At at(String place, String field) {
        return new At(place, field, null);
    }

    public static At at(String place, String field, Class<?> owner) {
        return new At(place, field, owner);
    }

    /** The static field is read, and what follows writes it. */
    public static At reading(String place, String field, Class<?> owner) {
        scheduler.pause();
        log.read(self().name, log.name(owner) + "." + field, place);
        return new At(place, field, owner);
    }

    /** The object whose field is touched next. */
    public static <T> T on(T object) {
        self().receivers.add(object);
        return object;
    }

    /** The object whose field is read right behind this call and written later. */
    public static <T> T reading(String place, String field, T object) {
        scheduler.pause();
        log.read(self().name, log.name(object) + "." + field, place);
        return on(object);
    }

    /** The index of the element that is touched next, in the array that {@code on} was given. */
    public static int index(int index) {
        self().receivers.add(index);
        return index;
    }

    /** The same, of an element that is read right behind this call and written later. */
    public static int reading(String place, int index) {
        scheduler.pause();
        List<Object> receivers = self().receivers;
        Object array = receivers.get(receivers.size() - 1);
        log.read(self().name, log.name(array) + "[" + index + "]", place);
        return index(index);
    }

    /** The object whose library method is called next, which reads it, writes it or makes a step that others see. */
    public static <T> T calling(String place, String kind, T object) {
        scheduler.pause();
        called(place, kind, object);
        return object;
    }

    private static void calledLast(String place, String kind) {
        scheduler.pause();
        if (!kind.equals("tries")) {
            called(place, kind, pop());
        }
    }

    /** A compare-and-set of the object that {@code on} was given has succeeded, or has only looked. */
    public static boolean tried(String place, boolean changed) {
        called(place, changed ? "step" : "reads", pop());
        return changed;
    }

    /** An argument that a library method writes into. */
    public static <T> T filled(String place, T argument) {
        called(place, "writes", argument);
        return argument;
    }

    private static void called(String place, String kind, Object object) {
        scheduler.within(place, object, () -> did(place, kind, object));
    }

    private static void did(String place, String kind, Object object) {
        String name = self().name;
        String where = log.name(object) + ".contents";
        if (kind.equals("reads")) {
            log.read(name, where, place);
        } else if (kind.equals("writes")) {
            log.write(name, where, place);
        } else if (kind.equals("step")) {
            log.change(name, where, place);
        } else {
            log.read(name, where, place);
            log.write(name, where, place);
        }
    }

    private static Object pop() {
        List<Object> receivers = self().receivers;
        return receivers.isEmpty() ? null : receivers.remove(receivers.size() - 1);
    }

    private static String where(At at) {
        if (at.receiver() != null) {
            return log.name(at.receiver()) + "." + at.field();
        }
        Object last = pop();
        return last instanceof Integer index && at.field().isEmpty() ? log.name(pop()) + "[" + index + "]"
            : log.name(last) + "." + at.field();
    }

    private static void hasRead(At at) {
        log.read(self().name, where(at), at.place());
        scheduler.pause();
    }

    private static void hasWritten(At at) {
        log.write(self().name, where(at), at.place());
        scheduler.pause();
    }

    public static Held take(String place, Object lock) {
        scheduler.take(place, lock);
        return () -> scheduler.give(place, lock);
    }

    public static void lock(String place, Lock lock) {
        scheduler.take(place, lock);
    }

    public static void lockInterruptibly(String place, Lock lock) throws InterruptedException {
        scheduler.take(place, lock);
    }

    public static boolean tryLock(String place, Lock lock) {
        return scheduler.tryTake(place, lock);
    }

    public static boolean tryLock(String place, Lock lock, long time, TimeUnit unit) throws InterruptedException {
        return scheduler.tryTake(place, lock);
    }

    public static void unlock(String place, Lock lock) {
        scheduler.give(place, lock);
    }

    /** Takes a lock that gives a stamp; readers take it alone too. */
    public static long takeStamped(String place, StampedLock lock) {
        scheduler.take(place, lock);
        return 1;
    }

    public static void giveStamped(String place, StampedLock lock, long stamp) {
        scheduler.give(place, lock);
    }

    public static ReentrantReadWriteLock.ReadLock readLock(ReentrantReadWriteLock lock) {
        scheduler.isPartOf(lock.readLock(), lock);
        return lock.readLock();
    }

    public static ReentrantReadWriteLock.WriteLock writeLock(ReentrantReadWriteLock lock) {
        scheduler.isPartOf(lock.writeLock(), lock);
        return lock.writeLock();
    }

    public static Lock readLock(ReadWriteLock lock) {
        return partOf(lock.readLock(), lock);
    }

    public static Lock writeLock(ReadWriteLock lock) {
        return partOf(lock.writeLock(), lock);
    }

    private static Lock partOf(Lock part, ReadWriteLock whole) {
        scheduler.isPartOf(part, whole);
        return part;
    }

    public static Condition newCondition(Lock lock) {
        return new LoggedCondition(scheduler, lock);
    }

    public static void await(Object lock) throws InterruptedException {
        scheduler.await(lock, lock, false);
    }

    public static void await(Object lock, long time) throws InterruptedException {
        scheduler.await(lock, lock, true);
    }

    public static void wake(Object lock, boolean all) {
        scheduler.wake(lock, all);
    }

    public static void start(String place, Thread thread) {
        scheduler.start(place, thread);
    }

    public static void join(String place, Thread thread) throws InterruptedException {
        scheduler.join(place, thread);
    }

    /** A method is entered; {@code atomic} says that it promises to be. */
    public static Held enter(String name, boolean atomic) {
        String thread = self().name;
        log.add(thread, (atomic ? "begin " : "enter ") + name, "");
        return () -> {
            if (!scheduler.isStopped()) {
                log.add(thread, atomic ? "end" : "leave", "");
            }
        };
    }

    public static int read(At at, int value) {
        hasRead(at);
        return value;
    }

    public static long read(At at, long value) {
        hasRead(at);
        return value;
    }

    public static boolean read(At at, boolean value) {
        hasRead(at);
        return value;
    }

    public static double read(At at, double value) {
        hasRead(at);
        return value;
    }

    public static char read(At at, char value) {
        hasRead(at);
        return value;
    }

    public static byte read(At at, byte value) {
        hasRead(at);
        return value;
    }

    public static short read(At at, short value) {
        hasRead(at);
        return value;
    }

    public static float read(At at, float value) {
        hasRead(at);
        return value;
    }

    public static <T> T read(At at, T value) {
        hasRead(at);
        return value;
    }

    public static int wrote(At at, int value) {
        hasWritten(at);
        return value;
    }

    public static long wrote(At at, long value) {
        hasWritten(at);
        return value;
    }

    public static boolean wrote(At at, boolean value) {
        hasWritten(at);
        return value;
    }

    public static double wrote(At at, double value) {
        hasWritten(at);
        return value;
    }

    public static char wrote(At at, char value) {
        hasWritten(at);
        return value;
    }

    public static byte wrote(At at, byte value) {
        hasWritten(at);
        return value;
    }

    public static short wrote(At at, short value) {
        hasWritten(at);
        return value;
    }

    public static float wrote(At at, float value) {
        hasWritten(at);
        return value;
    }

    public static <T> T wrote(At at, T value) {
        hasWritten(at);
        return value;
    }

    /** The last argument of a library method that is called on the object that {@code on} was given. */
    public static int callingWith(String place, String kind, int argument) {
        calledLast(place, kind);
        return argument;
    }

    /** The last argument of a library method that is called on the object that {@code on} was given. */
    public static long callingWith(String place, String kind, long argument) {
        calledLast(place, kind);
        return argument;
    }

    /** The last argument of a library method that is called on the object that {@code on} was given. */
    public static boolean callingWith(String place, String kind, boolean argument) {
        calledLast(place, kind);
        return argument;
    }

    /** The last argument of a library method that is called on the object that {@code on} was given. */
    public static double callingWith(String place, String kind, double argument) {
        calledLast(place, kind);
        return argument;
    }

    /** The last argument of a library method that is called on the object that {@code on} was given. */
    public static char callingWith(String place, String kind, char argument) {
        calledLast(place, kind);
        return argument;
    }

    /** The last argument of a library method that is called on the object that {@code on} was given. */
    public static byte callingWith(String place, String kind, byte argument) {
        calledLast(place, kind);
        return argument;
    }

    /** The last argument of a library method that is called on the object that {@code on} was given. */
    public static short callingWith(String place, String kind, short argument) {
        calledLast(place, kind);
        return argument;
    }

    /** The last argument of a library method that is called on the object that {@code on} was given. */
    public static float callingWith(String place, String kind, float argument) {
        calledLast(place, kind);
        return argument;
    }

    /** The last argument of a library method that is called on the object that {@code on} was given. */
    public static <T> T callingWith(String place, String kind, T argument) {
        calledLast(place, kind);
        return argument;
    }
}
