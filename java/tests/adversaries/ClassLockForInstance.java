// The other way round: a static method locks the class, and the field of the object wants the object's lock.
class ClassLockForInstance {
    @GuardedBy("this") private int value;

    /* atomic */ static synchronized void set(ClassLockForInstance cell) { // refused
        cell.value = 1;
    }
}

@interface GuardedBy {
    String value();
}
