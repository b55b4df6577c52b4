// The object is known to others before its constructor has ended, and they see both writes.
class ThisGetsAway {
    static volatile ThisGetsAway last;
    volatile int left;
    volatile int right;

    ThisGetsAway() {
        last = this;
        left = 1;
        right = 2;
    }

    /* atomic */ static ThisGetsAway make() { // refused
        return new ThisGetsAway();
    }
}
