// The constants of an enum are shared by all threads.
enum EnumWithState {
    RED, GREEN;

    private volatile int uses;

    /* atomic */ void use() { // refused
        uses = uses + 1;
    }
}
