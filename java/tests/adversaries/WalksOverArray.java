// A library's call that is given an array looks at its elements one after the other.
// judged with: --infer
import java.util.Arrays;

class WalksOverArray {
    private final int[] counts = new int[3];
    private final int[] summed = new int[3];
    private final int[] copied = new int[3];
    private final int[] kept = new int[3];

    synchronized void add() {
        counts[0]++;
        counts[1]++;
        summed[0]++;
        summed[1]++;
        copied[0]++;
        copied[1]++;
    }

    /* atomic */ synchronized void keep() { // accepted
        kept[0]++;
        kept[1]++;
    }

    /* atomic */ String text() { // refused
        return Arrays.toString(counts);
    }

    /* atomic */ int hash() { // refused
        return Arrays.hashCode(summed);
    }

    /* atomic */ int[] copy() { // refused
        return copied.clone();
    }

    /* atomic */ synchronized int[] underLock() { // accepted
        return kept.clone();
    }

    /* atomic */ int first() { // refused: most looks hold the lock
        return counts[0];
    }
}
