// judged with: --public --infer
package com.example.fifteenth;

import java.util.ArrayList;
import java.util.Arrays;
import java.util.List;
import java.util.Map;
import java.util.Optional;
import java.util.TreeMap;
import java.util.function.UnaryOperator;

/**
 * Trie of lower-case search terms with the suggestion cached for each.
 */
public class PrefixCache<T> {

    private static class TrieNode<T> {
        private final Map<Character, TrieNode<T>> children = new TreeMap<>();
        private T suggestion;
        private int uses;

        private void collect(List<T> sink) { // refused: fault: startingWith() holds no lock
            if (suggestion != null) {
                sink.add(suggestion);
            }
            children.values().forEach(c -> c.collect(sink));
        }
    }

    private final UnaryOperator<String> normalizer;
    private TrieNode<T> root = new TrieNode<>();
    private int entries;
    private volatile int lookups;

    public PrefixCache(UnaryOperator<String> normalizer) {
        this.normalizer = normalizer;
    }

    public synchronized Optional<T> store(String term, T suggestion) { // accepted
        TrieNode<T> node = root;
        for (char c : normalizer.apply(term).toCharArray()) {
            node = node.children.computeIfAbsent(c, k -> new TrieNode<>());
        }
        T previous = node.suggestion;
        node.suggestion = suggestion;
        if (previous == null) {
            entries++;
        }
        return Optional.ofNullable(previous);
    }

    public Optional<T> lookup(String term) { // refused: fault: lookups++ on a volatile outside the monitor: two threads read 7 and both write 8 (and the counter moves before the lookup happens)
        lookups++;
        synchronized (this) {
            TrieNode<T> node = walk(term);
            if (node == null || node.suggestion == null) {
                return Optional.empty();
            }
            node.uses++;
            return Optional.of(node.suggestion);
        }
    }

    public List<T> startingWith(String prefix) { // refused: fault: only the walk is in the monitor, collect() runs over the nodes' TreeMaps outside: store() adds a child meanwhile, ConcurrentModificationException or a torn list
        TrieNode<T> start;
        synchronized (this) {
            start = walk(prefix);
        }
        List<T> found = new ArrayList<>();
        if (start != null) {
            start.collect(found);
        }
        return found;
    }

    public synchronized boolean forget(String term) { // accepted
        TrieNode<T> node = walk(term);
        if (node == null || node.suggestion == null) {
            return false;
        }
        node.suggestion = null;
        node.uses = 0;
        entries--;
        return true;
    }

    public synchronized int usesOf(String term) { // accepted
        TrieNode<T> node = walk(term);
        return node == null ? 0 : node.uses;
    }

    /** Stores all terms that map to the same suggestion. */
    public synchronized void storeAliases(T suggestion, String... terms) { // accepted
        Arrays.stream(terms).forEach(t -> store(t, suggestion));
    }

    public boolean isEmpty() { // refused: fault: one look at a field without its lock
        return entries == 0;
    }

    public synchronized int size() { // accepted
        return entries;
    }

    public int lookups() { // accepted
        return lookups;
    }

    public synchronized void clear() { // accepted
        root = new TrieNode<>();
        entries = 0;
    }

    private TrieNode<T> walk(String term) {
        TrieNode<T> node = root;
        for (char c : normalizer.apply(term).toCharArray()) {
            node = node.children.get(c);
            if (node == null) {
                return null;
            }
        }
        return node;
    }
}
