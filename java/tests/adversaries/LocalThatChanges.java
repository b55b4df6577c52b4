// The local is assigned again: the object that is locked isn't the one whose field is written.
class LocalThatChanges {
    @GuardedBy("this") private int value;

    /* atomic */ static void add(LocalThatChanges first, LocalThatChanges second) { // refused
        LocalThatChanges cell = first;
        synchronized (cell) {
            cell = second;
            cell.value++;
        }
    }

    /* atomic */ static void addOnce(LocalThatChanges first) { // accepted
        LocalThatChanges cell = first;
        synchronized (cell) {
            cell.value++;
        }
    }
}

@interface GuardedBy {
    String value();
}
