// judged with: --infer
// Each helper runs its function twice, within a function of its own: written where they are called, these are two to the
// power of their number. What is left out then may do anything, and guards nothing.
class FunctionsInFunctions {
    private int value;
    private int other;

    private void once0(Runnable work) {
        work.run();
    }

    private void once1(Runnable work) {
        once0(work);
    }

    private void twice0(Runnable work) {
        work.run();
    }

    private void twice1(Runnable work) {
        twice0(() -> {
            work.run();
            work.run();
        });
    }

    private void twice2(Runnable work) {
        twice1(() -> {
            work.run();
            work.run();
        });
    }

    private void twice3(Runnable work) {
        twice2(() -> {
            work.run();
            work.run();
        });
    }

    private void twice4(Runnable work) {
        twice3(() -> {
            work.run();
            work.run();
        });
    }

    private void twice5(Runnable work) {
        twice4(() -> {
            work.run();
            work.run();
        });
    }

    private void twice6(Runnable work) {
        twice5(() -> {
            work.run();
            work.run();
        });
    }

    private void twice7(Runnable work) {
        twice6(() -> {
            work.run();
            work.run();
        });
    }

    private void twice8(Runnable work) {
        twice7(() -> {
            work.run();
            work.run();
        });
    }

    private void twice9(Runnable work) {
        twice8(() -> {
            work.run();
            work.run();
        });
    }

    private void twice10(Runnable work) {
        twice9(() -> {
            work.run();
            work.run();
        });
    }

    private void twice11(Runnable work) {
        twice10(() -> {
            work.run();
            work.run();
        });
    }

    private void twice12(Runnable work) {
        twice11(() -> {
            work.run();
            work.run();
        });
    }

    private void twice13(Runnable work) {
        twice12(() -> {
            work.run();
            work.run();
        });
    }

    private void twice14(Runnable work) {
        twice13(() -> {
            work.run();
            work.run();
        });
    }

    private void twice15(Runnable work) {
        twice14(() -> {
            work.run();
            work.run();
        });
    }

    private void twice16(Runnable work) {
        twice15(() -> {
            work.run();
            work.run();
        });
    }

    private void twice17(Runnable work) {
        twice16(() -> {
            work.run();
            work.run();
        });
    }

    private void twice18(Runnable work) {
        twice17(() -> {
            work.run();
            work.run();
        });
    }

    private void twice19(Runnable work) {
        twice18(() -> {
            work.run();
            work.run();
        });
    }

    private void twice20(Runnable work) {
        twice19(() -> {
            work.run();
            work.run();
        });
    }

    /* atomic */ void add() { // refused
        twice20(() -> value++);
    }

    /* atomic */ synchronized void addLocked() { // refused
        value++;
    }

    /* atomic */ synchronized void addOther() { // accepted
        once1(() -> once1(() -> other++));
    }
}
