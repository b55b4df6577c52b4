package atomic.java.places;

import atomic.java.skeleton.Place;
import java.util.ArrayList;
import java.util.HashSet;
import java.util.List;
import java.util.Set;
import java.util.TreeMap;
import java.util.TreeSet;

/** What was assumed or approximated, where and for which method. Each place is told of each thing once. */
public final class Notes {

    /** How far a skeleton's method is from its Java method. */
    public enum Kind { DATA_RACE, ASSUMED, APPROXIMATED }

    private final TreeMap<Place, Set<String>> lines = new TreeMap<>();
    private final TreeMap<Place, Set<String>> hints = new TreeMap<>();
    private final Set<Object> assumed = new HashSet<>();
    private final Set<Object> approximated = new HashSet<>();

    /** Notes something at a place of a method; {@code method} may be null. */
    public void tell(Kind kind, Object method, Place place, String text) {
        lines.computeIfAbsent(place, key -> new TreeSet<>()).add(word(kind) + ": " + text);
        if (method != null && kind != Kind.DATA_RACE) {
            (kind == Kind.ASSUMED ? assumed : approximated).add(method);
        }
    }

    /** Something that counts as more than it may be, which is told where some alarm may be a wrong one, and not else. */
    public void hint(Place place, String text) {
        hints.computeIfAbsent(place, key -> new TreeSet<>()).add(word(Kind.APPROXIMATED) + ": " + text);
    }

    /** In these files some alarm may be a wrong one. */
    public void reveal(Set<String> files) {
        hints.forEach((place, texts) -> {
            if (files.contains(place.file())) {
                lines.computeIfAbsent(place, key -> new TreeSet<>()).addAll(texts);
            }
        });
    }

    private static String word(Kind kind) {
        return switch (kind) {
            case DATA_RACE -> "data race";
            case ASSUMED -> "assumed";
            case APPROXIMATED -> "approximated";
        };
    }

    public boolean assumes(Object method) {
        return assumed.contains(method);
    }

    public boolean approximates(Object method) {
        return approximated.contains(method);
    }

    /** Whether anything is approximated. */
    public boolean approximates() {
        return !hints.isEmpty()
            || lines.values().stream().flatMap(Set::stream).anyMatch(each -> each.startsWith("approximated"));
    }

    /** All notes as lines, by their places. */
    public List<String> lines() {
        List<String> all = new ArrayList<>();
        lines.forEach((place, texts) -> texts.forEach(text -> all.add(place + ": note: " + text)));
        return all;
    }

    /** The notes between two places of one file. */
    public List<String> lines(Place from, Place to) {
        List<String> all = new ArrayList<>();
        lines.subMap(from, true, to, true).forEach((place, texts) ->
            texts.forEach(text -> all.add(place + ": note: " + text)));
        return all;
    }
}
