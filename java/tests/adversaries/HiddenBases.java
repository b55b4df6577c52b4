// Callers know the classes below a hidden base, and call what these have from it.
// judged with: --public --infer
abstract class HiddenBases {
    private volatile int left;
    private volatile int right;

    public void both() { // refused
        left = 1;
        right = 2;
    }

    public void one() { // accepted
        left = 1;
    }

    public void replaced() { // accepted: no object runs it
        left = 1;
        right = 2;
    }

    public static class Heir extends HiddenBases {
        @Override
        public void replaced() { // accepted
        }
    }
}

abstract class UnequalHeirs {
    private int sum;

    abstract int step();

    public void twice() { // refused: one heir's step is seen by others
        step();
        step();
    }

    public synchronized void add() { // accepted: whatever the heir does
        sum += step();
    }

    public void replaced() { // accepted: the one heir that has it takes no step
        step();
        step();
    }

    public static void count() { // refused
        counted = counted + 1;
    }

    private static volatile int counted;

    abstract static class Between extends UnequalHeirs {
        public void again() { // refused
            step();
            step();
        }
    }

    public static class Idle extends Between {
        @Override
        int step() {
            return 1;
        }
    }

    public static class Busy extends Between {
        private volatile int steps;

        @Override
        int step() {
            steps = 1;
            return 1;
        }

        @Override
        public void replaced() { // accepted
        }
    }
}

abstract class NobodyBelow {
    private volatile int left;

    public void both() { // accepted: nobody can call it
        left = 1;
        left = 2;
    }
}

enum Constants {
    FIRST {
        @Override
        public void both() { // refused
            left = 1;
            left = 2;
        }
    },
    SECOND {
        @Override
        public void both() { // accepted
            left = 1;
        }
    };

    private static volatile int left;

    public abstract void both();
}
