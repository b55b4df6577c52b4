// The first use of Holder runs its static block, which writes two fields that others read.
class StaticInitialiser {
    static volatile int left;
    static volatile int right;

    static class Holder {
        static final Object INSTANCE;

        static {
            left = 1;
            right = 2;
            INSTANCE = new Object();
        }
    }

    /* atomic */ static Object instance() { // refused
        return Holder.INSTANCE;
    }
}
