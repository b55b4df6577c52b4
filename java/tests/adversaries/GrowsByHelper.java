// Right: the array goes only to helpers of the same object, with the lock held.
class GrowsByHelper {
    @GuardedBy("this") private Object[] a = new Object[3];
    @GuardedBy("this") private int size;

    private Object[] grow() {
        return a = java.util.Arrays.copyOf(a, 2 * size);
    }

    private void add(Object x, Object[] es, int at) {
        if (at == es.length) {
            es = grow();
        }
        es[at] = x;
        size = at + 1;
    }

    private static void clear(Object[] es, int n) {
        for (int k = 0; k < n; k++) {
            es[k] = null;
        }
    }

    /* atomic */ synchronized void add(Object x) { // accepted
        add(x, a, size);
    }

    /* atomic */ synchronized Object get(int k) { // accepted
        final Object[] es = a;
        return es[k] == null ? es[0] : es[k];
    }

    /* atomic */ synchronized void clear() { // accepted
        clear(a, size);
        size = 0;
    }
}

@interface GuardedBy {
    String value();
}
