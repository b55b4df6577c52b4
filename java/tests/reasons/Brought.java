// judged with: --public --infer
import java.util.ArrayList;
import java.util.Collection;
import java.util.List;
import java.util.Map;
import java.util.Objects;
import java.util.Set;

/** Collections that others bring, which a method touches without any lock, and beside them what looks like it. */
public class Brought {

    public static final class Shelf {
        private final List<String> names;

        public Shelf(List<String> names) {
            this.names = Objects.requireNonNull(names);
        }

        public void add(String name) { // refused: certain: another thread may look at the list in the middle
            names.add(name);
        }

        public String first() { // refused: certain: another thread may add in the middle
            return names.get(0);
        }
    }

    public static final class View {
        private final Collection<String> names;

        public View(Collection<String> names) {
            this.names = names;
        }

        public boolean has(String name) { // refused: certain: it may be the list of a shelf
            return names.contains(name);
        }
    }

    public static final class Numbers {
        private final List<Integer> all;

        public Numbers(List<Integer> all) {
            this.all = all;
        }

        public int first() { // refused: perhaps: nothing here changes such a list
            return all.get(0);
        }
    }

    public static final class Locked {
        private final List<String> names;

        public Locked(List<String> names) {
            this.names = names;
        }

        public synchronized void add(String name) { // refused: perhaps: who brings it may leave it alone from then on
            names.add(name);
        }
    }

    public static final class Made {
        private final List<Long> all;

        private Made(List<Long> all) {
            this.all = all;
        }

        public static Made empty() {
            return new Made(new ArrayList<>());
        }

        public void add(long one) { // refused: perhaps: nobody else brings a list
            all.add(one);
        }

        public long first() { // refused: perhaps: nobody else brings a list
            return all.get(0);
        }
    }

    public static final class Keys {
        private final Map<String, Long> map;

        public Keys(Map<String, Long> map) {
            this.map = map;
        }

        public void drop(String key) { // refused: certain: another thread may ask for it in the middle
            map.remove(key);
        }

        public boolean has(String key) { // refused: certain: another thread may drop it in the middle
            return map.containsKey(key);
        }

        public Shown shown() {
            return new Shown(map.keySet());
        }
    }

    public static final class Shown {
        private final Set<String> keys;

        private Shown(Set<String> keys) {
            this.keys = keys;
        }

        public void drop(String key) { // refused: certain: another thread may ask for it in the middle
            keys.remove(key);
        }

        public boolean has(String key) { // refused: certain: another thread may drop it in the middle
            return keys.contains(key);
        }
    }
}
