// A helper that is given the array fills it without the lock.
class ClearsUnlocked {
    @GuardedBy("this") private Object[] a = new Object[3];

    private static void clear(Object[] es, int n) {
        for (int k = 0; k < n; k++) {
            es[k] = null;
        }
    }

    /* atomic */ synchronized Object get(int k) { // accepted
        final Object[] es = a;
        es[k] = 1;
        es[k] = 2;
        return es[k];
    }

    /* atomic */ void clear() { // refused
        clear(a, 3);
    }
}

@interface GuardedBy {
    String value();
}
