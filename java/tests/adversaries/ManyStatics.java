// More classes with static locks than one text of a skeleton has: each counts, and a method that takes all of them is
// compound.
class ManyStatics {
    static class Tally0 {
        @GuardedBy("Tally0.class") private static int count;

        /* atomic */ static synchronized void add() { // accepted
            count++;
        }

        /* atomic */ static void twice() { // refused
            add();
            add();
        }
    }

    static class Tally1 {
        @GuardedBy("Tally1.class") private static int count;

        /* atomic */ static synchronized void add() { // accepted
            count++;
        }

        /* atomic */ static void twice() { // refused
            add();
            add();
        }
    }

    static class Tally2 {
        @GuardedBy("Tally2.class") private static int count;

        /* atomic */ static synchronized void add() { // accepted
            count++;
        }

        /* atomic */ static void twice() { // refused
            add();
            add();
        }
    }

    static class Tally3 {
        @GuardedBy("Tally3.class") private static int count;

        /* atomic */ static synchronized void add() { // accepted
            count++;
        }

        /* atomic */ static void twice() { // refused
            add();
            add();
        }
    }

    static class Tally4 {
        @GuardedBy("Tally4.class") private static int count;

        /* atomic */ static synchronized void add() { // accepted
            count++;
        }

        /* atomic */ static void twice() { // refused
            add();
            add();
        }
    }

    static class Tally5 {
        @GuardedBy("Tally5.class") private static int count;

        /* atomic */ static synchronized void add() { // accepted
            count++;
        }

        /* atomic */ static void twice() { // refused
            add();
            add();
        }
    }

    static class Tally6 {
        @GuardedBy("Tally6.class") private static int count;

        /* atomic */ static synchronized void add() { // accepted
            count++;
        }

        /* atomic */ static void twice() { // refused
            add();
            add();
        }
    }

    static class Tally7 {
        @GuardedBy("Tally7.class") private static int count;

        /* atomic */ static synchronized void add() { // accepted
            count++;
        }

        /* atomic */ static void twice() { // refused
            add();
            add();
        }
    }

    static class Tally8 {
        @GuardedBy("Tally8.class") private static int count;

        /* atomic */ static synchronized void add() { // accepted
            count++;
        }

        /* atomic */ static void twice() { // refused
            add();
            add();
        }
    }

    static class Tally9 {
        @GuardedBy("Tally9.class") private static int count;

        /* atomic */ static synchronized void add() { // accepted
            count++;
        }

        /* atomic */ static void twice() { // refused
            add();
            add();
        }
    }

    static class Tally10 {
        @GuardedBy("Tally10.class") private static int count;

        /* atomic */ static synchronized void add() { // accepted
            count++;
        }

        /* atomic */ static void twice() { // refused
            add();
            add();
        }
    }

    static class Tally11 {
        @GuardedBy("Tally11.class") private static int count;

        /* atomic */ static synchronized void add() { // accepted
            count++;
        }

        /* atomic */ static void twice() { // refused
            add();
            add();
        }
    }

    static class Tally12 {
        @GuardedBy("Tally12.class") private static int count;

        /* atomic */ static synchronized void add() { // accepted
            count++;
        }

        /* atomic */ static void twice() { // refused
            add();
            add();
        }
    }

    static class Tally13 {
        @GuardedBy("Tally13.class") private static int count;

        /* atomic */ static synchronized void add() { // accepted
            count++;
        }

        /* atomic */ static void twice() { // refused
            add();
            add();
        }
    }

    static class Tally14 {
        @GuardedBy("Tally14.class") private static int count;

        /* atomic */ static synchronized void add() { // accepted
            count++;
        }

        /* atomic */ static void twice() { // refused
            add();
            add();
        }
    }

    static class Tally15 {
        @GuardedBy("Tally15.class") private static int count;

        /* atomic */ static synchronized void add() { // accepted
            count++;
        }

        /* atomic */ static void twice() { // refused
            add();
            add();
        }
    }

    static class Tally16 {
        @GuardedBy("Tally16.class") private static int count;

        /* atomic */ static synchronized void add() { // accepted
            count++;
        }

        /* atomic */ static void twice() { // refused
            add();
            add();
        }
    }

    static class Tally17 {
        @GuardedBy("Tally17.class") private static int count;

        /* atomic */ static synchronized void add() { // accepted
            count++;
        }

        /* atomic */ static void twice() { // refused
            add();
            add();
        }
    }

    /* atomic */ static void all() { // refused
        Tally0.add();
        Tally1.add();
        Tally2.add();
        Tally3.add();
        Tally4.add();
        Tally5.add();
        Tally6.add();
        Tally7.add();
        Tally8.add();
        Tally9.add();
        Tally10.add();
        Tally11.add();
        Tally12.add();
        Tally13.add();
        Tally14.add();
        Tally15.add();
        Tally16.add();
        Tally17.add();
    }
}
