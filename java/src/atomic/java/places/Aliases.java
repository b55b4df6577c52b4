package atomic.java.places;

import java.util.HashMap;
import java.util.Map;

/**
 * Short names in the place of a long skeleton's names, so that more of it fits into one text. Each is a letter, a digit and
 * what further letters and digits it takes, as no word of an answer is.
 */
public final class Aliases {
    private static final String LETTERS = "abcdefghijklmnopqrstuvwxyzABCDEFGHIJKLMNOPQRSTUVWXYZ";
    private static final int DIGITS = 10;

    private final Map<String, String> aliases = new HashMap<>();
    private final Map<String, String> names = new HashMap<>();

    /** The alias of a name, the same each time. A single letter is as short as can be. */
    public String of(String name) {
        return name.length() == 1 ? name : aliases.computeIfAbsent(name, this::next);
    }

    private String next(String name) {
        int number = aliases.size();
        int rest = number / LETTERS.length();
        String alias = LETTERS.charAt(number % LETTERS.length()) + String.valueOf(rest % DIGITS)
            + (rest < DIGITS ? "" : Integer.toString(rest / DIGITS, Character.MAX_RADIX));
        names.put(alias, name);
        return alias;
    }

    /** A line of an answer, which is ASCII, with the names that its aliases stand for. */
    public String spelled(String line) {
        StringBuilder spelled = new StringBuilder();
        int done = 0;
        int at = 0;
        while (at < line.length()) {
            int end = at;
            while (end < line.length() && isOfWord(line.charAt(end))) {
                end++;
            }
            String name = isAlias(line, at, end) ? names.get(line.substring(at, end)) : null;
            if (name != null) {
                spelled.append(line, done, at).append(name);
                done = end;
            }
            at = Math.max(end, at + 1);
        }
        return done == 0 ? line : spelled.append(line, done, line.length()).toString();
    }

    private static boolean isAlias(String line, int from, int to) {
        return to - from >= 2 && LETTERS.indexOf(line.charAt(from)) >= 0 && isDigit(line.charAt(from + 1));
    }

    private static boolean isOfWord(char letter) {
        return LETTERS.indexOf(letter) >= 0 || letter == '_' || isDigit(letter);
    }

    private static boolean isDigit(char letter) {
        return letter >= '0' && letter <= '9';
    }
}
