// The loop calls hasNext() and next() of this class.
import java.util.Iterator;

class ImplicitIterator implements Iterable<Integer>, Iterator<Integer> {
    @GuardedBy("this") private int at;

    @Override
    public Iterator<Integer> iterator() {
        return this;
    }

    @Override
    public synchronized boolean hasNext() {
        return at < 3;
    }

    @Override
    public synchronized Integer next() {
        return at++;
    }

    /* atomic */ int sum() { // refused
        int sum = 0;
        for (int one : this) sum += one;
        return sum;
    }
}

@interface GuardedBy {
    String value();
}
