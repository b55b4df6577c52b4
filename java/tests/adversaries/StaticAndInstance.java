// A synchronized method locks its object, and a static field belongs to all objects.
class StaticAndInstance {
    @GuardedBy("StaticAndInstance.class") private static int made;

    /* atomic */ synchronized void make() { // refused
        made++;
    }

    /* atomic */ static synchronized void makeStatic() { // accepted
        made++;
    }

    /* atomic */ void makeLocked() { // accepted
        synchronized (StaticAndInstance.class) {
            made++;
        }
    }
}

@interface GuardedBy {
    String value();
}
