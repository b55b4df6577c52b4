package javax.annotation.concurrent;

/** The field is touched, or the method called, only with this lock held. Stands in for the library's own annotation. */
public @interface GuardedBy {
    /** The name of the lock. */
    String value();
}
