// The function runs once for each element, and nothing holds the stack meanwhile.
import java.util.*;

class StackForEach {
    volatile int v;
    private final Stack<Integer> all = new Stack<>();

    /* atomic */ void f() { // refused
        all.forEach(w -> { v = v + w; });
    }
}
