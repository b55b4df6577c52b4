// What a pattern names is spoken of behind the next `&&`, in the branch, and behind the loop.
class PatternBehindAnd {
    @GuardedBy("this") private int value;

    /* atomic */ synchronized boolean isLike(Object given, boolean asked) { // refused
        return asked && given instanceof PatternBehindAnd other && other.value == value;
    }

    /* atomic */ static boolean isPositive(Object given, boolean asked) { // accepted
        if (asked && given instanceof PatternBehindAnd other && given != other.toString()) {
            synchronized (other) {
                return other.value > 0;
            }
        }
        return false;
    }

    /* atomic */ static void addTwice(Object given, boolean asked) { // refused
        if (asked && given instanceof PatternBehindAnd other) {
            synchronized (other) {
                other.value++;
            }
            synchronized (other) {
                other.value++;
            }
        }
    }

    /* atomic */ static void addToTheLast(Object[] given) { // refused
        int k = 0;
        while (!(given[k] instanceof PatternBehindAnd other)) {
            k++;
        }
        other.value++;
    }
}

@interface GuardedBy {
    String value();
}
