package atomic.java.places;

import java.util.HashMap;
import java.util.List;
import java.util.Map;
import java.util.Set;

/**
 * The names of a skeleton. A Java name that the language can write keeps its spelling; all others get one of their own.
 * What a name is called in Java is found again by the name alone, whatever it stands for.
 */
public final class Names {

    private static final int LONGEST = 48;

    /** The words of the language, and those that each skeleton uses itself. */
    private static final Set<String> TAKEN = Set.of(("abstract assert boolean break byte case catch char class const"
        + " continue default do double else enum extends final finally float for goto if implements import instanceof"
        + " int interface long native new package private protected public return short static strictfp super switch"
        + " synchronized this throw throws transient try void volatile while true false null atomic guarded_by requires"
        + " write_guarded_by System Thread Runnable Main Library Statics S Object").split(" "));

    private final Map<String, String> shown = new HashMap<>();
    private final Map<String, String> plain = new HashMap<>();
    private final Map<String, Integer> numbers = new HashMap<>();

    public Names() {
        for (String own : List.of("Main", "Library", "Statics", "S", "Object")) {
            shown.put(own, own);
        }
    }

    /** The spelling of a Java name, the same each time. */
    public String plain(String java) {
        return plain.computeIfAbsent(java, word -> fits(word) && !shown.containsKey(word) ? take(word, word)
            : invent(word, word));
    }

    /** A spelling that nothing else has, for what Java calls {@code called}. */
    public String invent(String wish, String called) {
        StringBuilder letters = new StringBuilder();
        for (char letter : wish.toCharArray()) {
            letters.append(isLetter(letter) ? letter : '_');
        }
        if (letters.length() > LONGEST) {
            letters.setLength(LONGEST);
        }
        if (letters.length() == 0 || Character.isDigit(letters.charAt(0))) {
            letters.insert(0, '_');
        }
        return take(numbered(letters.toString()), called);
    }

    /** The first name of a beginning and a number that nothing has. None is given back, so the numbers only rise. */
    private String numbered(String base) {
        int number = numbers.getOrDefault(base, 1);
        while (isTaken(base + "_" + number)) {
            number++;
        }
        numbers.put(base, number + 1);
        return base + "_" + number;
    }

    private boolean isTaken(String name) {
        return TAKEN.contains(name) || shown.containsKey(name) || plain.containsKey(name);
    }

    /** What Java calls a name of the skeleton. */
    public String shown(String name) {
        return shown.getOrDefault(name, name);
    }

    /** Whether the skeleton has such a name. */
    public boolean has(String name) {
        return shown.containsKey(name);
    }

    private String take(String name, String called) {
        shown.put(name, called);
        return name;
    }

    private static boolean fits(String word) {
        return word.length() <= LONGEST && !word.isEmpty() && !TAKEN.contains(word)
            && !Character.isDigit(word.charAt(0)) && word.chars().allMatch(Names::isLetter);
    }

    private static boolean isLetter(int letter) {
        return letter == '_' || letter < 128 && Character.isLetterOrDigit(letter);
    }
}
