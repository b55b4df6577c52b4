// `view` is a second name of the list that the caller gave, made fresh nowhere.
import java.util.ArrayList;
import java.util.List;

class SecondNameOfList {
    @GuardedBy("this") private List<String> names = new ArrayList<>();

    synchronized void use(List<String> given) {
        names = given;
    }

    /* atomic */ synchronized void addOnce(String name) { // refused
        if (!names.contains(name)) {
            names.add(name);
        }
    }
}

@interface GuardedBy {
    String value();
}
