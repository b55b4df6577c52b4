package jvm;

/** Ends a thread when all is over. */
final class Over extends Error {
    private static final long serialVersionUID = 1;

    Over() {
        super(null, null, false, false);
    }
}
