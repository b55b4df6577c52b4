// A collection that a method gives is its caller's own only where it is new, and nobody else has it.
import java.util.ArrayList;
import java.util.Collections;
import java.util.List;

class NewCollections {
    private final List<String> names = new ArrayList<>();
    private List<String> last;

    private List<String> made() {
        return new ArrayList<>();
    }

    private List<String> kept() {
        List<String> made = new ArrayList<>();
        last = made;
        return made;
    }

    private List<String> either(boolean own) {
        return own ? new ArrayList<>() : names;
    }

    private List<String> shown() {
        return Collections.synchronizedList(names);
    }

    private List<String> later() {
        List<String> made = new ArrayList<>();
        new Thread(() -> made.add("a")).start();
        return made;
    }

    List<String> open() {
        return new ArrayList<>();
    }

    static class Heir extends NewCollections {
        static final List<String> ALL = new ArrayList<>();

        @Override
        List<String> open() {
            return ALL;
        }
    }

    /* atomic */ int own() { // accepted
        List<String> one = made();
        one.add("a");
        one.add("b");
        return made().size() + made().size();
    }

    /* atomic */ void ofField() { // refused
        kept().add("a");
        kept().add("b");
    }

    /* atomic */ void ofEither() { // refused
        either(false).add("a");
        either(false).add("b");
    }

    /* atomic */ void ofWrapper() { // refused
        shown().add("a");
        shown().add("b");
    }

    /* atomic */ void ofThread() { // refused
        later().add("a");
        later().add("b");
    }

    /* atomic */ void ofHeir() { // refused
        open().add("a");
        open().add("b");
    }
}
