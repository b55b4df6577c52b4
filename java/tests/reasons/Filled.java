// A value that is there once stays there: to ask whether it is, and then to take it, is as good as to take it.
// judged with: --public --infer
import java.util.Optional;

public class Filled {
    static class Once {
        private volatile Optional<String> value = Optional.empty();

        public synchronized void set(String text) { // accepted
            value = Optional.of(text);
        }

        public String get() { // refused: perhaps: it never becomes empty again
            return value.isPresent() ? value.get() : null;
        }
    }

    static class Emptied {
        private volatile Optional<String> value = Optional.empty();

        public synchronized void set(String text) { // accepted
            value = Optional.of(text);
        }

        public synchronized void clear() { // accepted
            value = Optional.empty();
        }

        public String get() { // refused: certain: it may be empty by then
            return value.isPresent() ? value.get() : null;
        }
    }
}
