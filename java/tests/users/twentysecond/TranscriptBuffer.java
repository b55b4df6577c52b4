// judged with: --public --infer
package com.example.twentysecond;

import java.util.ArrayList;
import java.util.List;
import java.util.function.UnaryOperator;
import java.util.stream.Stream;

/** Text of a running conversation, with marks at the places where a new speaker begins. */
public class TranscriptBuffer implements CharSequence {
    private final StringBuilder text = new StringBuilder();
    private final List<Integer> marks = new ArrayList<>();
    private String title = "";

    public synchronized TranscriptBuffer append(CharSequence chunk) { // accepted
        text.append(chunk);
        return this;
    }

    public void say(String speaker, String words) { // refused: fault: two regions: A marks, B appends, A appends: A's section begins with B's words
        mark();
        append(speaker + ": " + words + System.lineSeparator());
    }

    public synchronized int mark() { // accepted
        int position = text.length();
        marks.add(position);
        return position;
    }

    public synchronized void replaceLast(String target, String replacement) { // accepted
        int at = text.lastIndexOf(target);
        if (at < 0) return;
        text.replace(at, at + target.length(), replacement);
        int shift = replacement.length() - target.length();
        marks.replaceAll(m -> m > at ? Math.max(at, m + shift) : m);
    }

    public synchronized void rewrite(UnaryOperator<String> filter) { // accepted
        String result = filter.apply(text.toString());
        text.setLength(0);
        text.append(result);
        marks.removeIf(m -> m > result.length());
    }

    @Override
    public int length() { // refused: fault: one look at the count of the StringBuilder without the lock (may also see the 0 in the middle of rewrite)
        return text.length();
    }

    @Override
    public synchronized char charAt(int index) { // accepted
        return text.charAt(index);
    }

    @Override
    public synchronized CharSequence subSequence(int start, int end) { // accepted
        return text.substring(start, end);
    }

    /** The last {@code n} characters, or everything if there are fewer. */
    public String tail(int n) { // refused: fault: length first (without lock), then subSequence in its own region: B clears between them: StringIndexOutOfBoundsException
        int end = length();
        int start = Math.max(0, end - n);
        return subSequence(start, end).toString();
    }

    public synchronized String section(int index) { // accepted
        int from = marks.get(index);
        int to = index + 1 < marks.size() ? marks.get(index + 1) : text.length();
        return text.substring(from, to);
    }

    public synchronized Stream<Integer> marks() { // refused: fault: the stream is lazy and runs over the private list after the lock has gone: B marks meanwhile: ConcurrentModificationException
        return marks.stream();
    }

    public synchronized void include(TranscriptBuffer other) { // accepted
        text.append(other.toString());
    }

    public void moveTo(TranscriptBuffer target) { // refused: fault: three regions: A copies the text, B appends, A clears: B's words are lost
        target.append(toString());
        clear();
    }

    public synchronized void clear() { // accepted
        text.setLength(0);
        marks.clear();
    }

    public synchronized void setTitle(String title) { // accepted
        this.title = title;
    }

    public String getTitle() { // refused: fault: one look at a plain field that is written under the lock
        return title;
    }

    @Override
    public synchronized String toString() { // accepted
        return text.toString();
    }
}
