package org.checkerframework.checker.lock.qual;

/** The named locks are held. Stands in for the library's own annotation. */
public @interface GuardedBy {
    /** The names of the locks. */
    String[] value();
}
