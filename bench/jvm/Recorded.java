package jvm;

/** What each class of a program extends that extends no other one: its objects are kept. */
public class Recorded {
    final int maker;
    final int number;

    protected Recorded() {
        Worker worker = Worker.current();
        maker = worker.number();
        number = worker.course().record(this, maker);
    }

    /** The address of an object, as docs/formats.md has it. */
    static String address(Object value) {
        return value instanceof Recorded found ? found.maker + ":" + found.number : String.valueOf(value);
    }
}
