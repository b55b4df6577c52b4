// More final fields that name locks than a class of the language has: the last ones guard nothing, and that is told.
class ManyLocks {
    private final Object lock0 = new Object();
    @GuardedBy("lock0") private int value0;

    /* atomic */ void add0() { // accepted
        synchronized (lock0) {
            value0++;
        }
    }

    private final Object lock1 = new Object();
    @GuardedBy("lock1") private int value1;

    /* atomic */ void add1() { // refused
        synchronized (lock1) {
            value1++;
        }
        synchronized (lock1) {
            value1++;
        }
    }

    private final Object lock2 = new Object();
    @GuardedBy("lock2") private int value2;

    /* atomic */ void add2() { // accepted
        synchronized (lock2) {
            value2++;
        }
    }

    private final Object lock3 = new Object();
    @GuardedBy("lock3") private int value3;

    /* atomic */ void add3() { // refused
        synchronized (lock3) {
            value3++;
        }
        synchronized (lock3) {
            value3++;
        }
    }

    private final Object lock4 = new Object();
    @GuardedBy("lock4") private int value4;

    /* atomic */ void add4() { // accepted
        synchronized (lock4) {
            value4++;
        }
    }

    private final Object lock5 = new Object();
    @GuardedBy("lock5") private int value5;

    /* atomic */ void add5() { // refused
        synchronized (lock5) {
            value5++;
        }
        synchronized (lock5) {
            value5++;
        }
    }

    private final Object lock6 = new Object();
    @GuardedBy("lock6") private int value6;

    /* atomic */ void add6() { // accepted
        synchronized (lock6) {
            value6++;
        }
    }

    private final Object lock7 = new Object();
    @GuardedBy("lock7") private int value7;

    /* atomic */ void add7() { // refused
        synchronized (lock7) {
            value7++;
        }
        synchronized (lock7) {
            value7++;
        }
    }

    private final Object lock8 = new Object();
    @GuardedBy("lock8") private int value8;

    /* atomic */ void add8() {
        synchronized (lock8) {
            value8++;
        }
    }

    private final Object lock9 = new Object();
    @GuardedBy("lock9") private int value9;

    /* atomic */ void add9() { // refused
        synchronized (lock9) {
            value9++;
        }
        synchronized (lock9) {
            value9++;
        }
    }

    private final Object lock10 = new Object();
    @GuardedBy("lock10") private int value10;

    /* atomic */ void add10() {
        synchronized (lock10) {
            value10++;
        }
    }

    private final Object lock11 = new Object();
    @GuardedBy("lock11") private int value11;

    /* atomic */ void add11() { // refused
        synchronized (lock11) {
            value11++;
        }
        synchronized (lock11) {
            value11++;
        }
    }

    private final Object lock12 = new Object();
    @GuardedBy("lock12") private int value12;

    /* atomic */ void add12() {
        synchronized (lock12) {
            value12++;
        }
    }

    private final Object lock13 = new Object();
    @GuardedBy("lock13") private int value13;

    /* atomic */ void add13() { // refused
        synchronized (lock13) {
            value13++;
        }
        synchronized (lock13) {
            value13++;
        }
    }

    private final Object lock14 = new Object();
    @GuardedBy("lock14") private int value14;

    /* atomic */ void add14() {
        synchronized (lock14) {
            value14++;
        }
    }

    private final Object lock15 = new Object();
    @GuardedBy("lock15") private int value15;

    /* atomic */ void add15() { // refused
        synchronized (lock15) {
            value15++;
        }
        synchronized (lock15) {
            value15++;
        }
    }

    private final Object lock16 = new Object();
    @GuardedBy("lock16") private int value16;

    /* atomic */ void add16() {
        synchronized (lock16) {
            value16++;
        }
    }

    private final Object lock17 = new Object();
    @GuardedBy("lock17") private int value17;

    /* atomic */ void add17() { // refused
        synchronized (lock17) {
            value17++;
        }
        synchronized (lock17) {
            value17++;
        }
    }

    private final Object lock18 = new Object();
    @GuardedBy("lock18") private int value18;

    /* atomic */ void add18() {
        synchronized (lock18) {
            value18++;
        }
    }

    private final Object lock19 = new Object();
    @GuardedBy("lock19") private int value19;

    /* atomic */ void add19() { // refused
        synchronized (lock19) {
            value19++;
        }
        synchronized (lock19) {
            value19++;
        }
    }

    /* atomic */ void unguarded() { // refused
        value3 = value4;
    }
}

@interface GuardedBy {
    String value();
}
