// judged with: --public --infer
package com.example.twelfth;

import java.util.ArrayList;
import java.util.List;
import java.util.Optional;
import java.util.concurrent.CopyOnWriteArrayList;
import java.util.concurrent.locks.ReadWriteLock;
import java.util.concurrent.locks.ReentrantReadWriteLock;
import java.util.function.Supplier;
import java.util.stream.IntStream;
import java.util.stream.Stream;

/** The text of one chat room, with an index of where the lines begin. */
public class ChatTranscript {

  public interface LineListener {
    void onLine(int number, String line);
  }

  private final ReadWriteLock rw = new ReentrantReadWriteLock();
  private final StringBuilder text = new StringBuilder();
  private final List<Integer> starts = new ArrayList<>();
  private final List<LineListener> listeners = new CopyOnWriteArrayList<>();
  private boolean titled;

  public void addListener(LineListener listener) { listeners.add(listener); } // accepted

  public int append(String author, String message) { // refused: fault: the text and the index change in one write-locked region and nothing of the own text is touched after it; but the list of listeners is read afterwards: T2 may see the new line, then addListener(), and the new listener is told of that line; two appends may be told in the other order
    var line = author + ": " + message;
    int number = writing(() -> {
      starts.add(text.length());
      text.append(line).append('\n');
      return starts.size() - 1;
    });
    listeners.forEach(l -> l.onLine(number, line));
    return number;
  }

  public void appendAll(String author, List<String> messages) { // refused: fault: one region per message: T2's append comes between two of them
    messages.forEach(m -> append(author, m));
  }

  public Optional<String> line(int number) { // accepted
    return reading(() -> number < 0 || number >= starts.size() ? Optional.empty() : Optional.of(lineAt(number)));
  }

  public int lineCount() { return reading(starts::size); } // accepted

  public Stream<String> lines() { // accepted: the count is taken now, each line later, lazily, in a region of its own: T2's clear() in between makes lineAt throw IndexOutOfBounds, or title()/redact() give a mix of old and new lines
    return IntStream.range(0, lineCount()).mapToObj(i -> reading(() -> lineAt(i)));
  }

  public List<String> tail(int n) { // accepted
    return reading(() -> IntStream.range(Math.max(0, starts.size() - n), starts.size())
        .mapToObj(this::lineAt)
        .toList());
  }

  /** Puts a title above the transcript, once. */
  public void title(String title) { // refused: fault: check under the read lock, act under the write lock without a second check: two threads both see titled=false and both put a title in
    if (reading(() -> titled)) return;
    writing(() -> {
      text.insert(0, title + "\n");
      starts.replaceAll(s -> s + title.length() + 1);
      starts.add(0, 0);
      return titled = true;
    });
  }

  public int redact(String word) { // accepted
    if (word.isEmpty()) return 0;
    var mask = "*".repeat(word.length());
    return writing(() -> {
      int n = 0;
      for (int at = text.indexOf(word); at >= 0; at = text.indexOf(word, at + word.length())) {
        text.replace(at, at + word.length(), mask);
        n++;
      }
      return n;
    });
  }

  public boolean mentions(String word) { // refused: fault: searches the StringBuilder without the lock: T2's insert or setLength moves the characters meanwhile, T1 misses a word that is there all the time, finds one that never was, or throws
    return text.indexOf(word) >= 0;
  }

  public String export() { // accepted
    return reading(text::toString);
  }

  public void clear() { // accepted
    writing(() -> {
      text.setLength(0);
      starts.clear();
      return titled = false;
    });
  }

  private String lineAt(int i) {
    int end = i + 1 < starts.size() ? starts.get(i + 1) : text.length();
    return text.substring(starts.get(i), end - 1);
  }

  private <R> R reading(Supplier<R> body) {
    rw.readLock().lock();
    try {
      return body.get();
    } finally {
      rw.readLock().unlock();
    }
  }

  private <R> R writing(Supplier<R> body) {
    rw.writeLock().lock();
    try {
      return body.get();
    } finally {
      rw.writeLock().unlock();
    }
  }
}
