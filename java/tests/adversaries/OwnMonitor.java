// What a class does under its own monitor is one step, and none where that monitor is held already.
import java.util.Collections;
import java.util.List;
import java.util.ArrayList;
import java.util.Vector;

class OwnMonitor {
    private final StringBuffer text = new StringBuffer();
    private final StringBuffer other = new StringBuffer();
    private final Vector<String> names = new Vector<>();
    private final List<String> list = Collections.synchronizedList(new ArrayList<>());
    private StringBuffer loose = new StringBuffer();
    private volatile int seen;

    /* atomic */ String drain() { // accepted
        synchronized (text) {
            String all = text.toString();
            text.setLength(0);
            return all;
        }
    }

    /* atomic */ void chain() { // accepted
        synchronized (text) {
            text.append("a").append("b");
        }
    }

    /* atomic */ boolean add(String name) { // accepted
        synchronized (names) {
            return !names.contains(name) && names.add(name);
        }
    }

    /* atomic */ boolean addToList(String name) { // accepted
        synchronized (list) {
            return !list.contains(name) && list.add(name);
        }
    }

    /* atomic */ void wrong() { // refused: that is the monitor of another one
        synchronized (other) {
            text.append("a");
            text.append("b");
        }
    }

    /* atomic */ synchronized void mine() { // refused: that is the monitor of this object
        text.append("a");
        text.append("b");
    }

    /* atomic */ void behind() { // refused: the second one comes behind the region
        synchronized (text) {
            text.append("a");
        }
        text.append("b");
    }

    /* atomic */ void sees() { // refused: two steps of its own
        synchronized (text) {
            text.append(seen);
            seen = text.length();
        }
    }

    void turn() {
        loose = new StringBuffer();
    }

    /* atomic */ void loose() { // refused: it may be another one at the second call
        synchronized (loose) {
            loose.append("a");
            loose.append("b");
        }
    }

    /* atomic */ void later() { // refused: a function that runs later doesn't hold it
        synchronized (text) {
            Runnable task = () -> {
                text.append("a");
                text.append("b");
            };
            new Thread(task).start();
            new Thread(task).start();
        }
    }
}
