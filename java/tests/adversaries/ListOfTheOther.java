// The field of another object of the class is reached without that object's lock.
import java.util.ArrayList;
import java.util.List;

class ListOfTheOther {
    @GuardedBy("this") private final List<String> names = new ArrayList<>();

    /* atomic */ synchronized void copy(ListOfTheOther other) { // refused
        names.clear();
        names.addAll(other.names);
    }
}

@interface GuardedBy {
    String value();
}
