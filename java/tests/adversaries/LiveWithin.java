// A list that is changed under the lock is given out within another object.
// judged with: --public --infer
import java.util.ArrayList;
import java.util.List;

public class LiveWithin {
    public record Page(List<String> names, int number) { }

    private final List<String> names = new ArrayList<>();
    private int number;

    public synchronized void name(String name) {
        names.add(name);
        number++;
    }

    public synchronized Page page() { // refused
        return new Page(names, number);
    }

    public synchronized Page copied() {
        return new Page(List.copyOf(names), number);
    }
}
