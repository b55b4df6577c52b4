// The same with a parameter.
class ParameterThatChanges {
    @GuardedBy("this") private int value;
    private final ParameterThatChanges next = null;

    /* atomic */ static void add(ParameterThatChanges cell) { // refused
        synchronized (cell) {
            cell = cell.next;
            cell.value++;
        }
    }
}

@interface GuardedBy {
    String value();
}
