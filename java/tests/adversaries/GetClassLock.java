// getClass() is another object in a class below.
class GetClassLock {
    @GuardedBy("GetClassLock.class") private static int made;

    /* atomic */ void make() { // refused
        synchronized (getClass()) {
            made++;
        }
    }
}

class Below extends GetClassLock {
}

@interface GuardedBy {
    String value();
}
