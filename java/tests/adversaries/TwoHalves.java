// A long that isn't volatile is written in two halves.
class TwoHalves {
    private long value;

    /* atomic */ void set(long value) { // refused
        this.value = value;
    }
}
