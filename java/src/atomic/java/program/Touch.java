package atomic.java.program;

/**
 * What a library's call does with an object that is safe by itself, such as an atomic or a concurrent map, or with one that
 * code outside has brought.
 *
 * @param object the field that holds the object, or {@link Part} of it, or {@link Brought}
 * @param kind what is done with it
 * @param asked the arguments of the call as they are written
 */
public record Touch(Object object, Kind kind, String asked) {

    /** What is found in an object that a field holds, such as the values of a map. */
    public record Part(Object whole) { }

    /** A collection of this type that code outside has brought; another one of the type may be the same. */
    public record Brought(String type) { }

    /** What a call does. */
    public enum Kind {
        /** It looks at the whole, such as its size. */
        LOOK,
        /** It looks one thing up. */
        FIND,
        /** It adds what isn't there. */
        ADD,
        /** It adds what an earlier look hasn't found, with no lock around the two: in a run without interruption it adds. */
        PUT,
        /** It makes the object of a field that has none. */
        MAKE,
        /** It sets such a field to null. */
        DROP,
        /** It sets a flag that never goes back. */
        SET,
        /** It changes something. */
        CHANGE,
        /** It changes one thing by a function of what is there, and where it tries again, what failed only looked. */
        UPDATE,
        /** It changes something if nobody came in between. */
        COMPARE,
        /** It changes something, and tries again until nobody came in between. */
        RETRY,
        /** It does so, and what was there is asked behind it. */
        DRAW;

        /** Whether it may change the object. */
        public boolean writes() {
            return this != LOOK && this != FIND;
        }

        /** Whether what was found before is found behind it too. */
        public boolean adds() {
            return this == ADD || this == MAKE;
        }

        /** The same where nobody comes in between. */
        public boolean addsAlone() {
            return adds() || this == PUT;
        }

        /** Whether it changes something only if nobody came in between. */
        public boolean tries() {
            return this == COMPARE || this == RETRY || this == DRAW;
        }

        /** Whether it changes one thing at one moment, however many steps it counts as. */
        public boolean changesOnce() {
            return adds() || tries() || this == UPDATE;
        }
    }
}
