// judged with: --public --infer
package com.example.ninth;

import java.util.ArrayList;
import java.util.Collections;
import java.util.List;
import java.util.Optional;
import java.util.concurrent.CopyOnWriteArrayList;
import java.util.concurrent.locks.ReadWriteLock;
import java.util.concurrent.locks.ReentrantReadWriteLock;
import java.util.function.Consumer;
import java.util.function.Predicate;
import java.util.function.Supplier;
import java.util.stream.Collectors;

/** Text log in memory with levels, listeners and rotation. */
public class AuditTrail {
    public enum Level { INFO, WARN, ERROR }

    public record Line(long seq, Level level, String text) {
        String format() {
            String mark = switch (level) {
                case INFO -> " ";
                case WARN -> "?";
                case ERROR -> "!";
            };
            return mark + seq + " " + text;
        }
    }

    private final ReadWriteLock rw = new ReentrantReadWriteLock();
    private final List<Line> lines = new ArrayList<>();
    private final List<Consumer<Line>> listeners = new CopyOnWriteArrayList<>();
    private long lastSeq;

    public Line append(Level level, String text) { // accepted
        rw.writeLock().lock();
        try {
            Line line = new Line(++lastSeq, level, text);
            lines.add(line);
            return line;
        } finally {
            rw.writeLock().unlock();
        }
    }

    public void appendAll(Level level, List<String> texts) { // refused: fault: appendAll([a,b]) with append(x) between the two: render() shows a x b; in whole calls a and b are neighbours
        texts.forEach(t -> append(level, t));
    }

    public void publish(Level level, String text) { // refused: fault: A appends line 1, B appends line 2 and tells the listeners, then A tells them: a listener gets 2 before 1; in whole calls always 1 before 2
        Line line = append(level, text);
        for (Consumer<Line> l : listeners) l.accept(line);
    }

    public boolean warnOnce(String text) { // refused: fault: two warnOnce(t) both find nothing, both append and return true; in whole calls the second returns false
        if (find(l -> l.level() == Level.WARN && l.text().equals(text)).isPresent()) return false;
        append(Level.WARN, text);
        return true;
    }

    public Optional<Line> find(Predicate<Line> wanted) { // accepted
        return reading(() -> lines.stream().filter(wanted).findFirst());
    }

    public Optional<Line> last() { // accepted
        return reading(() -> lines.isEmpty() ? Optional.empty() : Optional.of(lines.get(lines.size() - 1)));
    }

    public List<Line> tail(int n) { // accepted
        return reading(() -> List.copyOf(lines.subList(Math.max(0, lines.size() - n), lines.size())));
    }

    public List<Line> view() { // refused: fault: hands out a live view of the internal list: a caller that walks it while another thread runs append gets ConcurrentModificationException (the call itself only makes the wrapper)
        rw.readLock().lock();
        try {
            return Collections.unmodifiableList(lines);
        } finally {
            rw.readLock().unlock();
        }
    }

    public String render() { // accepted
        return reading(() -> lines.stream().map(Line::format).collect(Collectors.joining("\n")));
    }

    public int purge(Level below) { // refused: fault: two purge(WARN) both collect the same three lines, both return 3; in whole calls the second returns 0
        List<Line> doomed = reading(() -> lines.stream().filter(l -> l.level().compareTo(below) < 0).toList());
        rw.writeLock().lock();
        try {
            lines.removeAll(doomed);
        } finally {
            rw.writeLock().unlock();
        }
        return doomed.size();
    }

    public int rotate(int keep) { // accepted
        rw.writeLock().lock();
        try {
            int surplus = Math.max(0, lines.size() - keep);
            lines.subList(0, surplus).clear();
            return surplus;
        } finally {
            rw.writeLock().unlock();
        }
    }

    public Runnable onLine(Consumer<Line> listener) { // accepted
        listeners.add(listener);
        return () -> listeners.remove(listener);
    }

    public long lastSeq() { return lastSeq; } // refused: fault: a race on lastSeq

    private <T> T reading(Supplier<T> body) {
        rw.readLock().lock();
        try { return body.get(); } finally { rw.readLock().unlock(); }
    }
}
