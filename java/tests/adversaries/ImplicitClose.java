// The end of try calls close(), which takes the lock a second time.
class ImplicitClose implements AutoCloseable {
    @GuardedBy("this") private int uses;

    synchronized void use() {
        uses++;
    }

    @Override
    public synchronized void close() {
        uses--;
    }

    /* atomic */ static void useOnce(ImplicitClose given) { // refused
        try (ImplicitClose open = given) {
            open.use();
        }
    }
}

@interface GuardedBy {
    String value();
}
