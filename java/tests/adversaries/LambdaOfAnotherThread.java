// The lambda stands inside the synchronized method, but another thread runs it, without the lock.
class LambdaOfAnotherThread {
    @GuardedBy("this") private int done;

    synchronized void start() {
        new Thread(() -> done++).start(); // refused
    }
}

@interface GuardedBy {
    String value();
}
