// Each class has a lock of its own.
class StaticOfTwoClasses {
    @GuardedBy("StaticOfTwoClasses.class") static int made;

    /* atomic */ static synchronized void make() { // accepted
        made++;
    }
}

class OtherClass {
    /* atomic */ static synchronized void make() { // refused
        StaticOfTwoClasses.made++;
    }
}

@interface GuardedBy {
    String value();
}
