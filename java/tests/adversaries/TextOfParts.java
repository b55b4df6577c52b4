// The text of what has parts is made of the texts of these.
// judged with: --infer
import java.util.*;
import java.util.concurrent.atomic.*;

class TextOfParts {
    static class Part {
        private int asked;

        @Override
        public synchronized String toString() {
            return "" + asked++;
        }
    }

    record Pair(Part left, Part right) { }

    record Parts(List<Part> all) { }

    /* atomic */ static String optional(Optional<Pair> pair) { // refused
        return "" + pair;
    }

    /* atomic */ static String reference(AtomicReference<Pair> pair) { // refused
        return "" + pair;
    }

    /* atomic */ static String list(Parts parts) { // refused
        return "" + parts + parts;
    }

    /* atomic */ static String one(Part part) { // accepted
        return "" + part;
    }
}
