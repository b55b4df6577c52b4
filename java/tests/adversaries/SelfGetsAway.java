// The object gets away while it is made, without a name for it.
import java.util.*;

class SelfGetsAway {
    static volatile Object last;
    volatile int left;
    volatile int right;

    void set() {
        left = 1;
        right = 2;
    }

    class Inner { }

    SelfGetsAway() { }

    SelfGetsAway(int any) {
        last = this.new Inner();
        set();
    }

    SelfGetsAway given() {
        set();
        return this;
    }

    SelfGetsAway kept() {
        last = given();
        return this;
    }

    /* atomic */ static Object inner() { // refused
        return new SelfGetsAway(1);
    }

    /* atomic */ static void innerOfLocal() { // refused
        SelfGetsAway made = new SelfGetsAway();
        last = made.new Inner();
        made.set();
    }

    /* atomic */ static SelfGetsAway givenBack() { // accepted: nobody but the caller has it
        return new SelfGetsAway().given();
    }

    /* atomic */ static void givenAway() { // refused: what the call gives is the same object
        SelfGetsAway made = new SelfGetsAway();
        last = made.given();
        made.set();
    }

    /* atomic */ static SelfGetsAway keptByCall() { // refused
        SelfGetsAway made = new SelfGetsAway().kept();
        made.set();
        return made;
    }

    /* atomic */ static SelfGetsAway inFinally() { // refused
        return new SelfGetsAway().giveAndKeep();
    }

    private SelfGetsAway giveAndKeep() {
        try {
            return this;
        } finally {
            last = this;
            set();
        }
    }
}

class InnerOfAbove extends SelfGetsAway {
    InnerOfAbove() {
        last = new Inner();
        set();
    }

    /* atomic */ static Object make() { // refused
        return new InnerOfAbove();
    }
}

class NamedBySuper extends SelfGetsAway {
    static volatile Runnable run;

    NamedBySuper() {
        run = super::set;
        set();
    }

    /* atomic */ static Object make() { // refused
        return new NamedBySuper();
    }
}

class KeptByItsText extends SelfGetsAway implements Iterable<Integer>, Comparable<KeptByItsText> {
    @Override
    public String toString() {
        last = this;
        return "";
    }

    @Override
    public Iterator<Integer> iterator() {
        last = this;
        return List.of(1).iterator();
    }

    @Override
    public int compareTo(KeptByItsText other) {
        last = other;
        return 0;
    }

    /* atomic */ static void joined() { // refused
        KeptByItsText made = new KeptByItsText();
        String text = "text " + made;
        made.set();
    }

    /* atomic */ static void asText() { // refused
        KeptByItsText made = new KeptByItsText();
        String text = String.valueOf(made);
        made.set();
    }

    /* atomic */ static void walked() { // refused
        KeptByItsText made = new KeptByItsText();
        for (int each : made) { }
        made.set();
    }

    /* atomic */ static void compared(SortedSet<KeptByItsText> all) { // refused
        KeptByItsText made = new KeptByItsText();
        boolean found = all.contains(made);
        made.set();
    }
}

class StartsItself extends Thread {
    volatile int left;
    volatile int right;

    StartsItself() { }

    StartsItself(int any) {
        this.start();
        left = 1;
        right = 2;
    }

    /* atomic */ static Object make() { // refused
        return new StartsItself(1);
    }

    /* atomic */ static void local() { // refused
        StartsItself made = new StartsItself();
        made.start();
        made.left = 1;
        made.right = 2;
    }

    /* atomic */ static Object notStarted() { // accepted
        StartsItself made = new StartsItself();
        made.left = 1;
        made.right = 2;
        return made;
    }
}

class CallEachOther {
    static volatile Object last;
    volatile int left;

    void first(int deep) {
        if (deep > 0) {
            second(deep - 1);
        }
        left = 1;
        left = 2;
        last = this;
    }

    void second(int deep) {
        if (deep > 0) {
            first(deep - 1);
        }
        left = 3;
        left = 4;
    }

    /* atomic */ static void begin() { // refused: the inner call lets the object get away
        new CallEachOther().first(2);
    }

    /* atomic */ static void beginBySecond() { // refused
        new CallEachOther().second(2);
    }
}
