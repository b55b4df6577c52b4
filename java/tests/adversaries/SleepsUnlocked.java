// A queue's put() is one step, and so is take().
import java.util.concurrent.BlockingQueue;

class SleepsUnlocked {
    private final BlockingQueue<Integer> left;
    private final BlockingQueue<Integer> right;

    SleepsUnlocked(BlockingQueue<Integer> left, BlockingQueue<Integer> right) {
        this.left = left;
        this.right = right;
    }

    /* atomic */ void move() throws InterruptedException { // refused
        right.put(left.take());
    }
}
