// The first get() of each thread calls the function, which reads and writes.
class ThreadLocalInitial {
    private static volatile int next;
    private static final ThreadLocal<Integer> NUMBER = ThreadLocal.withInitial(() -> next++);

    /* atomic */ static int number() { // refused
        return NUMBER.get();
    }
}
