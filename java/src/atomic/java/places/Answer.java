package atomic.java.places;

import atomic.java.skeleton.Place;
import java.util.List;
import java.util.function.Predicate;
import java.util.function.UnaryOperator;
import java.util.regex.Matcher;
import java.util.regex.Pattern;

/** Brings the lines of {@code atomic_why} back to the places and names of the Java sources. */
public final class Answer {
    private static final Pattern LINE = Pattern.compile("(\\d+):(\\d+): (error|note): (.*)");
    private static final Pattern RULE = Pattern.compile(" \\[[a-z-]+\\]");
    private static final Pattern HEAD = Pattern.compile("\\S+ is (const|mover|atomic|cmpd|error)");
    private static final String DECLARED = " is declared ";

    private final Text text;
    private final Names names;
    private final UnaryOperator<String> spelled;

    /** The answer about a text; {@code spelled} gives the words of a line with the names that its short ones stand for. */
    public Answer(Text text, Names names, UnaryOperator<String> spelled) {
        this.text = text;
        this.names = names;
        this.spelled = spelled;
    }

    /**
     * The lines at Java places. What is said of the inside of a library's method is left out, and what stands behind an error
     * whose first line isn't wanted.
     */
    public List<String> lines(List<String> told, Predicate<String> wanted) {
        Blocks blocks = new Blocks();
        boolean outside = false;
        boolean had = false;
        for (String line : told) {
            Matcher parts = LINE.matcher(line);
            if (!parts.matches()) {
                blocks.begin(spelled.apply(line));
                continue;
            }
            String words = withoutRule(parts.group(4));
            boolean head = words.contains(DECLARED) || HEAD.matcher(words).matches();
            if (head || !outside && !had) {
                Place place = text.place(Integer.parseInt(parts.group(1)), Integer.parseInt(parts.group(2)));
                String written = place + ": " + parts.group(3) + ": " + java(spelled.apply(words));
                outside = head ? place == null : outside;
                if (head && !outside) {
                    boolean first = blocks.begin(written);
                    had = parts.group(3).equals("error") ? first && !wanted.test(written) : had;
                } else if (!head && place != null) {
                    blocks.add(written);
                }
            }
        }
        return blocks.lines();
    }

    /** A line without the name of the rule that may stand at its end. */
    private static String withoutRule(String words) {
        int end = words.endsWith("]") ? words.lastIndexOf(" [") : -1;
        return end >= 0 && RULE.matcher(words.substring(end)).matches() ? words.substring(0, end) : words;
    }

    /** A text with the names that Java has for what it speaks of. */
    String java(String told) {
        StringBuilder result = new StringBuilder();
        int at = 0;
        while (at < told.length()) {
            int end = behindChain(told, at);
            if (end > at) {
                result.append(chain(told.substring(at, end)));
                at = end;
            } else {
                result.append(told.charAt(at++));
            }
        }
        return result.toString().replace("Library..", "");
    }

    /** Where the names end that begin here and that points connect; here where none does. */
    private static int behindChain(String told, int from) {
        int end = from;
        int next = from;
        while (next < told.length() && isLetter(told.charAt(next))) {
            end = next + 1;
            while (end < told.length() && (isLetter(told.charAt(end)) || isDigit(told.charAt(end)))) {
                end++;
            }
            next = end < told.length() && told.charAt(end) == '.' ? end + 1 : told.length();
        }
        return end;
    }

    private static boolean isLetter(char letter) {
        return letter == '_' || letter >= 'a' && letter <= 'z' || letter >= 'A' && letter <= 'Z';
    }

    private static boolean isDigit(char letter) {
        return letter >= '0' && letter <= '9';
    }

    private String chain(String written) {
        String[] steps = written.split("\\.");
        if (steps.length == 1 && !names.has(written)) {
            return written;
        }
        StringBuilder chain = new StringBuilder();
        for (String step : steps) {
            String shown = names.shown(step);
            if (shown.startsWith("=")) {
                chain.setLength(0);
                chain.append(shown.substring(1));
            } else if (chain.toString().endsWith(".class")) {
                chain.setLength(chain.length() - "class".length());
                chain.append(shown);
            } else {
                chain.append(chain.length() == 0 ? "" : shown.startsWith("'") ? "" : ".").append(shown);
            }
        }
        return chain.toString();
    }
}
