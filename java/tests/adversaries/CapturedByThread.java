// The list is local, but the thread that is started adds to it too.
import java.util.ArrayList;
import java.util.List;

class CapturedByThread {
    /* atomic */ int fill() { // refused
        List<Integer> numbers = new ArrayList<>();
        new Thread(() -> numbers.add(1)).start();
        numbers.add(2);
        numbers.add(3);
        return numbers.size();
    }
}
