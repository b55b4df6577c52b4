// Most of what touches a field holds its lock, and one change doesn't: that change is the error.
// judged with: --public --infer
import java.util.ArrayList;
import java.util.List;

public class MostChanges {
    private final StringBuilder text = new StringBuilder();
    private int edits;

    public synchronized void append(String more) { // accepted
        text.append(more).append('\n');
        edits++;
    }

    public synchronized void replace(String what, String with) { // accepted
        int at = text.indexOf(what);
        if (at >= 0) {
            text.replace(at, at + what.length(), with);
            edits++;
        }
    }

    public void trim(int most) { // refused: it holds another lock
        synchronized (text) {
            if (text.length() > most) {
                text.delete(0, text.length() - most);
                edits++;
            }
        }
    }

    public synchronized int length() { // accepted
        return text.length();
    }

    public synchronized int edits() { // accepted
        return edits;
    }

    public synchronized char at(int place) { // accepted
        return text.charAt(place);
    }

    public synchronized void clear() { // accepted
        text.setLength(0);
        edits++;
    }

    /** Here few accesses lack the lock, and many do. */
    public static class Halves {
        private final List<String> names = new ArrayList<>();

        public synchronized void add(String name) { // refused: others change it meanwhile
            names.add(name);
            names.add(name);
        }

        public synchronized int size() { // refused: others change it meanwhile
            return names.size() + names.size();
        }

        public void drop(String name) { // refused: it holds nothing
            names.remove(name);
            names.remove(name);
        }

        public boolean has(String name) { // refused: it holds nothing
            return names.contains(name) || names.contains(name);
        }
    }
}
