// What the objects of a private class are made of is known where each making is at hand, and gives a map that never changes.
// judged with: --public --infer
import java.util.HashMap;
import java.util.List;
import java.util.Map;
import java.util.concurrent.atomic.AtomicReference;

public class PrivateMakings {
    private record Book(Map<String, Long> funds, Map<Long, String> deals) {
        Book with(String who, long cents) {
            Map<String, Long> next = new HashMap<>(funds);
            next.put(who, cents);
            return new Book(Map.copyOf(next), deals);
        }

        long of(String who) {
            return funds.getOrDefault(who, 0L) + funds.getOrDefault(who + who, 0L);
        }
    }

    private final AtomicReference<Book> book = new AtomicReference<>(new Book(Map.of(), Map.of()));

    public long of(String who) { // accepted
        return book.get().of(who);
    }

    public int size() { // accepted
        Book now = book.get();
        return now.funds().size() + now.deals().size();
    }

    public void forget(String who) { // accepted
        book.set(new Book(Map.of(), Map.of()).with(who, 0));
    }

    public long twice(String who) { // refused: two looks at the reference
        return book.get().of(who) + book.get().of(who);
    }

    public static class OfAnything {
        private record Held(Map<String, Long> funds) {
            long of(String who) {
                return funds.getOrDefault(who, 0L) + funds.getOrDefault(who + who, 0L);
            }
        }

        private volatile Held held = new Held(Map.of());

        public void set(Map<String, Long> given) { // accepted
            held = new Held(given);
        }

        public long of(String who) { // refused: others have that map
            return held.of(who);
        }
    }

    public static class Changing {
        private record Held(Map<String, Long> funds) {
            Held {
                funds = new HashMap<>(funds);
            }

            long of(String who) {
                return funds.getOrDefault(who, 0L) + funds.getOrDefault(who + who, 0L);
            }
        }

        private volatile Held held = new Held(Map.of());

        public void put(String who) { // refused: it changes the map of what others know
            held.funds().put(who, 1L);
        }

        public long of(String who) { // refused: the record makes a map that is changed
            return held.of(who);
        }
    }

    public static class MadeBelow {
        private static class Held {
            final List<String> names;

            Held(List<String> names) {
                this.names = names;
            }

            int twice() {
                return names.size() + names.size();
            }
        }

        private volatile Held held = new Held(List.of());

        public void set(List<String> given) { // accepted
            held = new Held(given) { };
        }

        public int size() { // refused: a class below is made of another list
            return held.twice();
        }
    }

    public static class OneOfTwo {
        private record Held(List<String> names) {
            int twice() {
                return names.size() + names.size();
            }
        }

        private volatile Held held = new Held(List.of());

        public void set(boolean empty, List<String> given) { // accepted
            List<String> next = List.of();
            if (!empty) {
                next = given;
            }
            held = new Held(next);
        }

        public int size() { // refused: the local may have another list
            return held.twice();
        }
    }
}
