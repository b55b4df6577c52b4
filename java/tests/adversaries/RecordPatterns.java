// since: 21

/** Patterns of records call the accessors that somebody wrote, and a guard is asked before its case is taken. */
class RecordPatterns {
    static volatile int looks;
    private volatile boolean open;

    record Counted(int value) {
        public int value() {
            looks = 1;
            looks = 2;
            return value;
        }
    }

    record Plain(int value) { }

    record Pair(Object one, Object two) { }

    /* atomic */ static int written(Object given) { // refused
        return given instanceof Counted(int value) ? value : 0;
    }

    /* atomic */ static int inSwitch(Object given) { // refused
        return switch (given) {
            case Counted(int value) -> value;
            default -> 0;
        };
    }

    /* atomic */ static int nested(Object given) { // refused
        return given instanceof Pair(Counted(int value), Object rest) ? value : 0;
    }

    /* atomic */ static int plain(Object given) { // accepted
        return given instanceof Pair(Plain(int value), Object rest) ? value : 0;
    }

    /* atomic */ int guards(Object given) { // refused
        return switch (given) {
            case String text when open -> 1;
            case Integer number when open -> 2;
            default -> 0;
        };
    }

    /* atomic */ int guard(Object given) { // accepted
        return switch (given) {
            case String text when open -> 1;
            default -> 0;
        };
    }
}
