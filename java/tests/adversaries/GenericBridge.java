// The call through the interface runs the method of the class, which has two regions.
interface Task<T> {
    void run(T given);
}

class GenericBridge implements Task<String> {
    @GuardedBy("this") private int count;

    @Override
    public void run(String given) {
        synchronized (this) {
            count++;
        }
        synchronized (this) {
            count++;
        }
    }

    /* atomic */ static void start(Task<String> task) { // refused
        task.run("");
    }
}

@interface GuardedBy {
    String value();
}
