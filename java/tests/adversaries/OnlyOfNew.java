// A method that fills a new object takes no lock from a field, as long as it is called on new objects alone.
// judged with: --infer
class OnlyOfNew {
    private int left;
    private int right;

    OnlyOfNew() {
        fill();
    }

    private void fill() {
        left = 1;
        more();
    }

    private void more() {
        right = 2;
    }

    /* atomic */ synchronized void both() { // accepted
        left++;
        right++;
    }
}

class CalledLaterToo {
    private int left;
    private int right;

    CalledLaterToo() {
        fill();
    }

    private void fill() {
        left = 1;
        right = 2;
    }

    void again() {
        fill();
    }

    /* atomic */ synchronized void both() { // refused
        left++;
        right++;
    }
}

class NamedForLater {
    private int left;
    private int right;

    NamedForLater() {
        fill();
    }

    private void fill() {
        left = 1;
        right = 2;
    }

    Runnable again() {
        return this::fill;
    }

    /* atomic */ synchronized void both() { // refused
        left++;
        right++;
    }
}

class CalledByHeir {
    private int left;
    private int right;

    CalledByHeir() {
        fill();
    }

    protected void fill() {
        left = 1;
        right = 2;
    }

    /* atomic */ synchronized void both() { // refused
        left++;
        right++;
    }

    static class Heir extends CalledByHeir {
        void again() {
            fill();
        }
    }
}
