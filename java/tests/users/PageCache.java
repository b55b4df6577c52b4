package com.example.pages;

import java.util.ArrayList;
import java.util.HashMap;
import java.util.Iterator;
import java.util.LinkedHashMap;
import java.util.List;
import java.util.Map;
import java.util.NoSuchElementException;
import java.util.Optional;
import java.util.function.Function;

/** A cache of pages in groups, each of which hangs in a list of its own. */
// judged with: --public --infer
public class PageCache implements Iterable<String> {

    /** A page. */
    private static class Page {
        final String title;
        String text;
        int uses;
        Page next;

        Page(String title, String text, Page next) {
            this.title = title;
            this.text = text;
            this.next = next;
        }

        void use() {
            uses++;
        }
    }

    /** A group of pages. */
    private static class Group {
        Page first;
        int size;

        Page find(String title) {
            Page each = first;
            while (each != null && !each.title.equals(title)) {
                each = each.next;
            }
            return each;
        }
    }

    private final Map<String, Group> groups = new HashMap<>();
    private final Map<String, Integer> sizes = new LinkedHashMap<>(16, 0.75f, true);
    private int changes;

    public synchronized void put(String group, String title, String text) { // accepted
        Group found = groups.computeIfAbsent(group, key -> new Group());
        Page page = found.find(title);
        if (page == null) {
            found.first = new Page(title, text, found.first);
            found.size++;
        } else {
            page.text = text;
        }
        sizes.put(group, found.size);
        changes++;
    }

    public synchronized Optional<String> get(String group, String title) { // accepted
        return Optional.ofNullable(groups.get(group)).map(found -> found.find(title)).map(page -> {
            page.use();
            return page.text;
        });
    }

    public synchronized boolean remove(String group, String title) { // accepted
        Group found = groups.get(group);
        if (found == null) {
            return false;
        }
        for (Page each = found.first, before = null; each != null; before = each, each = each.next) {
            if (each.title.equals(title)) {
                if (before == null) {
                    found.first = each.next;
                } else {
                    before.next = each.next;
                }
                found.size--;
                changes++;
                return true;
            }
        }
        return false;
    }

    public synchronized void move(String title, String from, String to) { // refused: alarm: new Walk() looks at changes under the lock of its caller, which is not seen
        Optional<String> text = get(from, title);
        text.ifPresent(each -> {
            remove(from, title);
            put(to, title, each);
        });
    }

    public void moveInSteps(String title, String from, String to) { // refused: fault: the page is in neither group in between
        String text = get(from, title).orElseThrow();
        remove(from, title);
        put(to, title, text);
    }

    public synchronized int uses(String group) { // accepted
        int sum = 0;
        for (Page each = groups.containsKey(group) ? groups.get(group).first : null; each != null; each = each.next) {
            sum += each.uses;
        }
        return sum;
    }

    public synchronized Map<String, Integer> sizes() { // accepted
        return new HashMap<>(sizes);
    }

    public synchronized List<String> titles() { // accepted
        List<String> all = new ArrayList<>();
        for (Map.Entry<String, Group> each : groups.entrySet()) {
            for (Page page = each.getValue().first; page != null; page = page.next) {
                all.add(each.getKey() + "/" + page.title);
            }
        }
        return all;
    }

    public String load(String group, String title, Function<String, String> loader) { // refused: fault: two regions, and the caller's function between them
        Optional<String> known = get(group, title);
        if (known.isPresent()) {
            return known.get();
        }
        String text = loader.apply(title);
        put(group, title, text);
        return text;
    }

    @Override
    public Iterator<String> iterator() { // accepted
        return titles().iterator();
    }

    /** Walks over the titles of one group, and notices changes. */
    private final class Walk implements Iterator<String> {
        private final int begun = changes;
        private Page next;

        Walk(Page first) {
            next = first;
        }

        @Override
        public boolean hasNext() { // accepted
            return next != null;
        }

        @Override
        public String next() { // accepted
            synchronized (PageCache.this) {
                if (begun != changes || next == null) {
                    throw new NoSuchElementException();
                }
                String title = next.title;
                next = next.next;
                return title;
            }
        }
    }

    public synchronized Iterator<String> walk(String group) { // accepted
        Group found = groups.get(group);
        return new Walk(found == null ? null : found.first);
    }

    public synchronized void clear() { // accepted
        groups.values().forEach(each -> each.first = null);
        groups.clear();
        sizes.clear();
        changes++;
    }
}
