// clone() of the class above gives a copy the same array.
import java.util.*;

class CloneOfList extends ArrayList<String> {
    @GuardedBy("this") private int[] a = new int[3];

    /* atomic */ synchronized void f() { // refused
        a[0]++;
        a[0]++;
    }
}

@interface GuardedBy {
    String value();
}
