package atomic.java.library;

/**
 * What a call of a library's method counts as.
 *
 * @param kind its steps
 * @param calls whether it calls the functions among its arguments before it returns
 * @param once whether it calls each of them at most once
 * @param fills whether it writes into the objects among its arguments
 * @param keeps whether it keeps what it is given, so that others may reach it from then on
 * @param elsewhere whether the functions that it is given run in another thread, which is told
 * @param borrows whether nobody gets the first thing that it is given from it, then or later
 * @param makes the class of the new object that it gives, or null
 */
public record Choice(Kind kind, boolean calls, boolean once, boolean fills, boolean keeps, boolean elsewhere, boolean borrows,
        String makes) {

    /** The steps of a call. */
    public enum Kind {
        /** None: it looks at nothing that changes. */
        PURE,
        /** None, if nobody else writes what it looks at: this is told. */
        ASSUMED,
        /** One step that others can see. */
        STEP,
        /** Several steps. */
        COMPOUND,
        /** It looks at its object, which isn't safe by itself. */
        READS,
        /** It changes its object, which isn't safe by itself. */
        WRITES,
        /** It gives an object that shows the contents of this one. */
        VIEW,
        /** It adds to a pipeline, and runs nothing yet. */
        PIPE,
        /** It runs the pipeline that it ends. */
        RUN,
        /** Nothing is known of it. */
        UNKNOWN
    }

    /** Whether a function among the arguments runs within the call: so it does where nothing is kept and nothing waits. */
    public boolean runsFunctions() {
        return calls || !keeps && switch (kind) {
            case PURE, ASSUMED, READS, WRITES -> true;
            default -> false;
        };
    }

    /** A method that no row speaks of. */
    public static final Choice UNKNOWN = new Choice(Kind.UNKNOWN, false, false, false, true, false, false, null);

    /** What gives a part of a record. */
    public static final Choice ACCESSOR = new Choice(Kind.PURE, false, false, false, false, false, false, null);

    /** The making of an object of a class that no row speaks of, which keeps what it is made of and does nothing else. */
    static final Choice MADE = new Choice(Kind.PURE, false, false, false, true, false, false, null);

    /** The choice that a word of the table spells: a kind, and flags behind plus signs. */
    static Choice of(String word) {
        String[] words = word.split("\\+");
        boolean calls = false;
        boolean once = false;
        boolean fills = false;
        boolean keeps = false;
        boolean elsewhere = false;
        boolean borrows = false;
        String makes = null;
        for (int k = 1; k < words.length; k++) {
            switch (words[k]) {
                case "calls" -> calls = true;
                case "once" -> once = true;
                case "fills" -> fills = true;
                case "keeps" -> keeps = true;
                case "elsewhere" -> elsewhere = true;
                case "borrows" -> borrows = true;
                default -> {
                    if (!words[k].startsWith("makes=")) {
                        throw new IllegalArgumentException(words[k]);
                    }
                    makes = words[k].substring("makes=".length());
                }
            }
        }
        return new Choice(Kind.valueOf(words[0].toUpperCase(java.util.Locale.ROOT)), calls || once, once, fills, keeps,
            elsewhere, borrows, makes);
    }
}
