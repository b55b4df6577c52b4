package atomic.java.places;

import atomic.java.skeleton.Place;
import java.nio.charset.StandardCharsets;
import java.util.ArrayList;
import java.util.Arrays;
import java.util.List;

/** The text of a skeleton as it is written, with the Java place of each of its places. All its characters are ASCII. */
public final class Text {
    private final StringBuilder text = new StringBuilder();
    private final List<Place> places = new ArrayList<>();
    private int[] marks = new int[16];
    private int[] starts = new int[16];
    private int lines = 1;
    private int depth;
    private boolean flat;

    /** What is written from here on comes from this place. */
    public Text mark(Place place) {
        int last = places.size() - 1;
        if (place != null && last >= 0 && marks[last] == text.length()) {
            places.set(last, place);
        } else if (place != null) {
            marks = with(marks, places.size(), text.length());
            places.add(place);
        }
        return this;
    }

    /** Whether lines begin without blanks, and have those alone that stand between two words. */
    void flat(boolean without) {
        flat = without;
    }

    public Text put(String words) {
        if (!flat) {
            text.append(words);
            return this;
        }
        for (int at = 0; at < words.length(); at++) {
            if (words.charAt(at) != ' ' || parts(words, at)) {
                text.append(words.charAt(at));
            }
        }
        return this;
    }

    /** Whether the blank at a place of {@code words} parts two words, as far as they tell. */
    private static boolean parts(String words, int at) {
        return (at == 0 || Character.isJavaIdentifierPart(words.charAt(at - 1)))
            && (at + 1 == words.length() || Character.isJavaIdentifierPart(words.charAt(at + 1)));
    }

    /** Ends the line behind {@code words}. */
    public Text line(String words) {
        put(words);
        text.append('\n');
        starts = with(starts, lines++, text.length());
        return this;
    }

    /** An array with a value at an index, which may be the first one behind its end. */
    private static int[] with(int[] all, int index, int value) {
        int[] enough = index < all.length ? all : Arrays.copyOf(all, 2 * index);
        enough[index] = value;
        return enough;
    }

    /** Begins a line. */
    public Text begin() {
        text.append("  ".repeat(flat ? 0 : Math.min(depth, 20)));
        return this;
    }

    /** Ends a line with a brace, within which lines stand deeper. */
    public void open(String words) {
        line(words + " {");
        depth++;
    }

    /** Lines stand deeper from here on. */
    public void deeper() {
        depth++;
    }

    /** A line with the closing brace, and {@code words} behind it. In a flat text it goes on with the line before. */
    public void close(String words) {
        depth--;
        if (flat) {
            text.setLength(text.length() - 1);
            lines--;
        }
        begin().line("}" + words);
    }

    /** The place in Java: of the last mark before the place on its line, or null. */
    public Place place(int line, int column) {
        if (line < 1 || line > lines) {
            return null;
        }
        int start = starts[line - 1];
        int end = line < lines ? starts[line] - 1 : text.length();
        int found = Arrays.binarySearch(marks, 0, places.size(), Math.min(start + column - 1, end));
        int before = found >= 0 ? found : -found - 2;
        return before < 0 || marks[before] < start ? null : places.get(before);
    }

    /** The number of the line that is written now. */
    public int lines() {
        return lines;
    }

    public byte[] bytes() {
        return text.toString().getBytes(StandardCharsets.US_ASCII);
    }

    public int length() {
        return text.length();
    }

    @Override
    public String toString() {
        return text.toString();
    }
}
