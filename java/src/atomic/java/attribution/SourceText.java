package atomic.java.attribution;

import atomic.java.skeleton.Place;
import java.util.Arrays;

/** The text of one Java source, as the command line names it. */
public final class SourceText {
    private static final String ATOMIC = "atomic";

    private final String file;
    private final String text;
    private final int[] starts;
    private final boolean plain;

    public SourceText(String file, String text) {
        this.file = file;
        this.text = text;
        int[] found = new int[16];
        int count = 1;
        int letters = 0;
        for (int k = 0; k < text.length(); k++) {
            letters |= text.charAt(k);
            if (text.charAt(k) == '\n') {
                found = count == found.length ? Arrays.copyOf(found, 2 * count) : found;
                found[count++] = k + 1;
            }
        }
        plain = letters < 0x80;
        starts = Arrays.copyOf(found, count);
    }

    public String file() {
        return file;
    }

    public String text() {
        return text;
    }

    public int lines() {
        return starts.length;
    }

    /** The place of a character; columns count bytes. */
    public Place place(long offset) {
        int at = (int) Math.max(0, Math.min(offset, text.length()));
        int line = line(at);
        return new Place(file, line + 1, 1 + bytes(starts[line], at));
    }

    /** The line that a character stands in; the first one is 0. */
    private int line(int at) {
        int found = Arrays.binarySearch(starts, at);
        return found >= 0 ? found : -found - 2;
    }

    private int bytes(int from, int to) {
        if (plain) {
            return to - from;
        }
        int count = 0;
        for (int k = from; k < to; k++) {
            char letter = text.charAt(k);
            count += letter < 0x80 ? 1 : letter < 0x800 || Character.isSurrogate(letter) ? 2 : 3;
        }
        return count;
    }

    /** Where the word stands first as a token behind {@code from}, outside comments and texts; else {@code from}. */
    public int find(String word, long from) {
        int at = (int) Math.max(0, from);
        while (at < text.length() && !word.isEmpty()) {
            if (text.startsWith("//", at) || text.startsWith("/*", at)) {
                at = behindComment(at);
            } else if (text.charAt(at) == '"' || text.charAt(at) == '\'') {
                at = behindQuotes(at);
            } else if (Character.isJavaIdentifierStart(text.charAt(at))) {
                int end = at;
                while (end < text.length() && Character.isJavaIdentifierPart(text.charAt(end))) {
                    end++;
                }
                if (text.substring(at, end).equals(word)) {
                    return at;
                }
                at = end;
            } else {
                at++;
            }
        }
        return (int) Math.max(0, from);
    }

    private int behindComment(int at) {
        boolean line = text.startsWith("//", at);
        int end = text.indexOf(line ? "\n" : "*/", at + 2);
        return end < 0 ? text.length() : end + (line ? 1 : 2);
    }

    private int behindQuotes(int at) {
        if (text.startsWith("\"\"\"", at)) {
            int end = text.indexOf("\"\"\"", at + 3);
            return end < 0 ? text.length() : end + 3;
        }
        int end = at + 1;
        while (end < text.length() && text.charAt(end) != text.charAt(at) && text.charAt(end) != '\n') {
            end += text.charAt(end) == '\\' ? 2 : 1;
        }
        return end + 1;
    }

    /** Whether a comment says {@code atomic} between {@code from} and {@code to}, or right before {@code from}. */
    public boolean saysAtomic(long from, long to) {
        int begin = before((int) from);
        int at = begin;
        while (at < to && at < text.length()) {
            if (text.startsWith("//", at) || text.startsWith("/*", at)) {
                int end = behindComment(at);
                if (isAtomic(at, end)) {
                    return true;
                }
                at = end;
            } else {
                at++;
            }
        }
        return false;
    }

    /** Whether a comment says {@code atomic}, and nothing else: at its first other letter it doesn't. */
    private boolean isAtomic(int from, int to) {
        int said = 0;
        for (int k = from; k < to; k++) {
            char letter = text.charAt(k);
            boolean blank = letter == '/' || letter == '*' || Character.isWhitespace(letter);
            if (!blank && (said == ATOMIC.length() || letter != ATOMIC.charAt(said++))) {
                return false;
            }
        }
        return said == ATOMIC.length();
    }

    /** The beginning of the comments and blanks that stand right before an offset. */
    private int before(int offset) {
        int at = offset;
        while (at > 0) {
            int line = starts[line(at)];
            int begin = line;
            while (begin < at && Character.isWhitespace(text.charAt(begin))) {
                begin++;
            }
            int end = at;
            while (end > begin && Character.isWhitespace(text.charAt(end - 1))) {
                end--;
            }
            if (begin == end || text.startsWith("//", begin)) {
                at = Math.max(0, line - 1);
            } else if (text.startsWith("*/", end - 2)) {
                at = Math.max(0, text.lastIndexOf("/*", at - 1));
            } else {
                return at;
            }
            if (line == 0) {
                return 0;
            }
        }
        return at;
    }
}
