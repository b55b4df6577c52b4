// judged with: --public --infer
package com.example.fifth;

import java.util.ArrayList;
import java.util.Collection;
import java.util.Collections;
import java.util.Iterator;
import java.util.List;
import java.util.Locale;
import java.util.regex.Pattern;
import java.util.stream.Collectors;

/** The lines of a talk, with a title. */
public class Transcript {

    /** A builder for one line; every thread has its own. */
    private static final ThreadLocal<StringBuilder> SCRATCH = ThreadLocal.withInitial(StringBuilder::new);

    private final List<String> lines = Collections.synchronizedList(new ArrayList<String>());
    private final StringBuffer title = new StringBuffer("untitled");

    public void add(String line) { // accepted
        lines.add(line);
    }

    public void addAll(Collection<String> more) { // accepted
        lines.addAll(more);
    }

    /** Adds one line: the speaker, and the words with blanks between. */
    public void say(String speaker, Object... words) { // refused: alarm: the builder is thread-local, then one add
        StringBuilder sb = SCRATCH.get();
        sb.setLength(0);
        sb.append(speaker.toUpperCase(Locale.ROOT)).append(':');
        for (Object word : words) {
            sb.append(' ').append(word);
        }
        lines.add(sb.toString());
    }

    public boolean addOnce(String line) { // accepted
        synchronized (lines) {
            return !lines.contains(line) && lines.add(line);
        }
    }

    public int size() { // accepted
        return lines.size();
    }

    public String line(int i) { // accepted
        return lines.get(i);
    }

    public String last() { // refused: fault: three operations
        return lines.isEmpty() ? null : lines.get(lines.size() - 1);
    }

    public String removeLast() { // refused: alarm: (hard: client-side locking)
        synchronized (lines) {
            return size() == 0 ? null : lines.remove(size() - 1);
        }
    }

    /** Undoes everything behind the first n lines. */
    public synchronized void cutTo(int n) { // refused: fault: holds the wrong lock (`this`, not the list)
        while (lines.size() > n) {
            lines.remove(lines.size() - 1);
        }
    }

    public void replaceAll(String word, String by) { // refused: alarm: one operation (SynchronizedList.replaceAll holds the mutex)
        lines.replaceAll(l -> l.replace(word, by));
    }

    public List<String> grep(Pattern p) { // refused: fault: stream() of a synchronized list isn't synchronized: data race with add on the inner ArrayList (ConcurrentModif
        return lines.stream().filter(p.asPredicate()).collect(Collectors.toList());
    }

    public long count(Pattern p) { // refused: alarm: (hard), toArray is one operation of the list, rest is local
        String[] copy = lines.toArray(new String[0]);
        long n = 0;
        for (String l : copy) {
            if (p.matcher(l).find()) n++;
        }
        return n;
    }

    public String join(String separator) { // refused: alarm: iteration under the list's own mutex
        StringBuilder sb = new StringBuilder();
        synchronized (lines) {
            for (Iterator<String> it = lines.iterator(); it.hasNext();) {
                sb.append(it.next());
                if (it.hasNext()) sb.append(separator);
            }
        }
        return sb.toString();
    }

    public String title() { // accepted
        return title.toString();
    }

    public void appendToTitle(String more) { // accepted
        title.append(more);
    }

    public void retitle(String fresh) { // refused: fault: two operations
        title.setLength(0);
        title.append(fresh);
    }

    public void decorateTitle() { // accepted
        synchronized (title) {
            title.insert(0, "* ").append(" *");
        }
    }

    @Override
    public String toString() { // refused: fault: title and lines in two pieces
        return title() + "\n" + join("\n");
    }
}
