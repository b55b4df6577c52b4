package com.example.chat;

import java.time.Instant;
import java.util.ArrayList;
import java.util.Iterator;
import java.util.List;
import java.util.ListIterator;
import java.util.Objects;
import java.util.StringJoiner;
import java.util.concurrent.locks.ReadWriteLock;
import java.util.concurrent.locks.ReentrantReadWriteLock;
import java.util.function.BiFunction;
import java.util.function.Predicate;
import java.util.stream.Collectors;
import java.util.stream.Stream;

/** What is said in a room: lines of many threads, of which the oldest ones go. */
// judged with: --public --infer
public final class ChatText {

    /** A line, and who said it. */
    public record Line(String who, String text, Instant at) implements Comparable<Line> {
        public Line {
            Objects.requireNonNull(who);
            text = text.strip();
        }

        boolean mentions(String name) {
            return text.contains("@" + name);
        }

        @Override
        public int compareTo(Line other) { // accepted
            return at.compareTo(other.at);
        }

        @Override
        public String toString() { // accepted
            return "%s: %s".formatted(who, text);
        }
    }

    private final ReadWriteLock lock = new ReentrantReadWriteLock(true);
    private final List<Line> lines = new ArrayList<>();
    private final StringBuilder title = new StringBuilder("room");
    private final int most;
    private int dropped;
    private volatile Predicate<Line> filter = line -> true;

    public ChatText(int most) {
        this.most = most;
    }

    public void say(String who, String text) { // accepted
        var line = new Line(who, text, Instant.now());
        lock.writeLock().lock();
        try {
            lines.add(line);
            while (lines.size() > most) {
                lines.remove(0);
                dropped++;
            }
        } finally {
            lock.writeLock().unlock();
        }
    }

    public void sayAll(String who, Stream<String> texts) { // refused: fault: one region for each line
        texts.forEach(text -> say(who, text));
    }

    public void sayFiltered(String who, String text) { // refused: fault: the filter is looked at and run, and then there is a region
        if (filter.test(new Line(who, text, Instant.now()))) {
            say(who, text);
        }
    }

    public void filter(Predicate<Line> newFilter) { // accepted
        filter = newFilter.and(line -> !line.text().isEmpty());
    }

    public List<String> linesOf(String who) { // accepted
        lock.readLock().lock();
        try {
            return lines.stream().filter(line -> line.who().equals(who)).map(Line::text).toList();
        } finally {
            lock.readLock().unlock();
        }
    }

    public String mentions(String name) { // accepted
        var joiner = new StringJoiner("\n", "[", "]");
        lock.readLock().lock();
        try {
            for (Line line : lines) {
                if (line.mentions(name)) {
                    joiner.add(line.toString());
                }
            }
        } finally {
            lock.readLock().unlock();
        }
        return joiner.toString();
    }

    public String text() { // accepted
        lock.readLock().lock();
        try {
            return lines.stream().map(Line::toString).collect(Collectors.joining("\n", title + "\n", ""));
        } finally {
            lock.readLock().unlock();
        }
    }

    public int forget(String who) { // accepted
        lock.writeLock().lock();
        try {
            int before = lines.size();
            for (Iterator<Line> walk = lines.iterator(); walk.hasNext(); ) {
                if (walk.next().who().equals(who)) {
                    walk.remove();
                }
            }
            return before - lines.size();
        } finally {
            lock.writeLock().unlock();
        }
    }

    public void rename(String old, String name) { // accepted
        lock.writeLock().lock();
        try {
            for (ListIterator<Line> walk = lines.listIterator(); walk.hasNext(); ) {
                Line line = walk.next();
                if (line.who().equals(old)) {
                    walk.set(new Line(name, line.text(), line.at()));
                }
            }
        } finally {
            lock.writeLock().unlock();
        }
    }

    public <R> R fold(R first, BiFunction<? super R, ? super Line, ? extends R> step) { // accepted
        R result = first;
        lock.readLock().lock();
        try {
            for (Line line : lines) {
                result = step.apply(result, line);
            }
        } finally {
            lock.readLock().unlock();
        }
        return result;
    }

    public void title(String text) { // accepted
        lock.writeLock().lock();
        try {
            title.setLength(0);
            title.append(text);
        } finally {
            lock.writeLock().unlock();
        }
    }

    public String title() { // accepted
        lock.readLock().lock();
        try {
            return title.toString();
        } finally {
            lock.readLock().unlock();
        }
    }

    public boolean titleIs(String text) { // accepted
        return title().equals(text);
    }

    public String head() { // refused: fault: two regions
        return title() + " " + dropped();
    }

    public int dropped() { // accepted
        lock.readLock().lock();
        try {
            return dropped;
        } finally {
            lock.readLock().unlock();
        }
    }
}
