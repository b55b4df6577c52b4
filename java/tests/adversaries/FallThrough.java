// The first case has no break: both regions run.
class FallThrough {
    @GuardedBy("this") private int value;

    private synchronized void add(int more) {
        value += more;
    }

    /* atomic */ void step(int kind) { // refused
        switch (kind) {
            case 0:
                add(1);
            case 1:
                add(2);
                break;
            default:
                add(3);
        }
    }

    /* atomic */ void one(int kind) { // accepted
        switch (kind) {
            case 0 -> add(1);
            case 1 -> add(2);
            default -> add(3);
        }
    }
}

@interface GuardedBy {
    String value();
}
