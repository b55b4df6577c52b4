package net.jcip.annotations;

/** Says nothing to this checker. Stands in for the library's own annotation. */
public @interface NotThreadSafe { }
