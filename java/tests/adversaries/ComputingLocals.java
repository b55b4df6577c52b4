// A function that fills a new collection of its own only computes; one that changes another one does more.
// judged with: --public --infer
import java.util.ArrayList;
import java.util.HashMap;
import java.util.List;
import java.util.Map;
import java.util.concurrent.atomic.AtomicInteger;
import java.util.concurrent.atomic.AtomicReference;

public class ComputingLocals {
    private record Book(Map<String, Long> funds) {
        Book with(String who, long cents) {
            Map<String, Long> next = new HashMap<>(funds);
            next.merge(who, cents, Long::sum);
            return new Book(Map.copyOf(next));
        }

        long held(String who) {
            return funds.get(who);
        }
    }

    private final AtomicReference<Book> book = new AtomicReference<>(new Book(Map.of()));

    public void deposit(String who, long cents) { // accepted
        book.updateAndGet(now -> now.with(who, cents));
    }

    public void refund(String who) { // accepted
        book.updateAndGet(now -> {
            long held = now.held(who);
            return now.with(who, -held);
        });
    }

    public static class Keeping {
        private static volatile List<Integer> last;
        private final AtomicReference<List<Integer>> values = new AtomicReference<>(List.of());
        private final AtomicInteger count = new AtomicInteger();
        private final AtomicInteger other = new AtomicInteger();

        public int turns() { // refused: what a turn that failed has seen is kept
            List<Integer> seen = new ArrayList<>();
            List<Integer> old;
            do {
                old = values.get();
                seen.add(old.size());
            } while (!values.compareAndSet(old, List.of(1)));
            return seen.get(0);
        }

        private static int add(List<Integer> all, int more) {
            all.add(more);
            return more + all.size();
        }

        public void ofCaller(List<Integer> all) { // refused: each turn changes the list of the caller
            count.updateAndGet(now -> add(all, now));
        }

        private int known(int more) {
            List<Integer> all = new ArrayList<>();
            last = all;
            all.add(more);
            return more + all.size();
        }

        public void known() { // refused: others know the list
            count.updateAndGet(now -> known(now));
        }

        private int steps(int more) {
            List<Integer> all = new ArrayList<>();
            all.add(more);
            all.replaceAll(other::addAndGet);
            return all.get(0);
        }

        public void steps() { // refused: the function that it names has a step
            count.updateAndGet(now -> steps(now));
        }
    }
}
