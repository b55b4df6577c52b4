// A class below gives another array in the helper's place.
class HelperOverridden {
    @GuardedBy("this") int[] a = new int[3];

    int[] grow() {
        return a = new int[9];
    }

    /* atomic */ synchronized void f() { // refused
        int[] x = grow();
        x[0]++;
        x[0]++;
    }

    static class Below extends HelperOverridden {
        static int[] shared = new int[4];
        @Override int[] grow() {
            return shared;
        }
        static void g() {
            shared[0]++;
        }
    }
}

@interface GuardedBy {
    String value();
}
