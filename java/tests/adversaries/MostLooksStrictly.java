// Strictly nothing rests on what is told as an error: a look without the lock is seen by all that is done under it.
// judged with: --public --infer --strict
public final class MostLooksStrictly {
    private int count;

    public synchronized void add() { // refused
        count = 1;
        count = 2;
    }

    public synchronized int twice() { // accepted
        return count + count;
    }

    public boolean isEmpty() { // accepted
        return count == 0;
    }
}
