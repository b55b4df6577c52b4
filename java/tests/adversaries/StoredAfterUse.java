// The list is local at first. Then it is stored where others find it, and is changed twice.
import java.util.ArrayList;
import java.util.List;

class StoredAfterUse {
    volatile List<Integer> last;

    /* atomic */ void fill() { // refused
        List<Integer> numbers = new ArrayList<>();
        last = numbers;
        numbers.add(2);
        numbers.add(3);
    }
}
