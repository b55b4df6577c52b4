// What first uses a class: the making of an object below an interface, a field that is set, a constructor's name.
import java.util.function.*;

class StaticStarts {
    static volatile int left;
    static volatile int right;

    static int set() {
        left = 1;
        right = 2;
        return 1;
    }

    interface WithDefault {
        Integer FIELD = set();

        default void inherited() { }
    }

    static class Below implements WithDefault { }

    interface WithoutDefault {
        Integer FIELD = set();
    }

    static class BelowOther implements WithoutDefault { }

    static class Begins {
        static int number = 1;
        static final int CONSTANT = 2;

        static {
            set();
        }
    }

    /* atomic */ static Object below() { // refused
        return new Below();
    }

    /* atomic */ static Object belowOther() { // accepted: such an interface begins with its field
        return new BelowOther();
    }

    /* atomic */ static void assigned() { // refused
        Begins.number = 3;
    }

    /* atomic */ static int constant() { // accepted
        return Begins.CONSTANT;
    }

    /* atomic */ static Object named() { // refused
        Supplier<Object> maker = Begins::new;
        return maker.get();
    }
}
