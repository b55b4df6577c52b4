package atomic.java.skeleton;

import java.util.ArrayList;
import java.util.LinkedHashSet;
import java.util.List;
import java.util.Set;

/** A method of a skeleton. All methods are void: what a call gives is opaque. */
public final class Method {

    /** Whether a method that stands for a library's may have fewer steps than its body. */
    public enum Doubt {
        /** It has these. */
        NONE,
        /** It runs code that others bring: it may have them, unless a lock keeps others away meanwhile. */
        OPEN,
        /** Nothing is known. */
        ANY
    }

    private final Shape owner;
    private final String name;
    private final Place place;
    private final List<Path.Root> parameters = new ArrayList<>();
    private final Set<Path> required = new LinkedHashSet<>();
    private final List<Path.Root> loose = new ArrayList<>();
    private boolean atomic;
    private boolean closed;
    private boolean wrapped;
    private Doubt doubt = Doubt.NONE;
    private String unknown;
    private boolean brought;
    private Part body = Part.NOTHING;
    private final List<Method> overridden = new ArrayList<>();

    public Method(Shape owner, String name, Place place) {
        this.owner = owner;
        this.name = name;
        this.place = place;
    }

    public Shape owner() {
        return owner;
    }

    public String name() {
        return name;
    }

    /** Where the Java method is named, or null where no Java method stands behind this one. */
    public Place place() {
        return place;
    }

    public List<Path.Root> parameters() {
        return parameters;
    }

    /** The locks that each caller holds. */
    public Set<Path> required() {
        return required;
    }

    /** Variables that are assigned again, so that they name no lock. */
    public List<Path.Root> loose() {
        return loose;
    }

    public boolean atomic() {
        return atomic;
    }

    public void promiseAtomic() {
        atomic = true;
    }

    /** Whether all calls of it stand in the skeleton, so that what they hold may be inferred as required. */
    public boolean closed() {
        return closed;
    }

    public void closed(boolean onlyCalledHere) {
        closed = onlyCalledHere;
    }

    /** Whether only a library's wrapper calls it, which holds a lock then. */
    public boolean wrapped() {
        return wrapped;
    }

    public void wrapped(boolean byLibrary) {
        wrapped = byLibrary;
    }

    public Doubt doubt() {
        return doubt;
    }

    public void doubt(Doubt kind) {
        doubt = kind;
    }

    /** What is told of each call that stays, where this stands for code of which nothing is known; else null. */
    public String unknown() {
        return unknown;
    }

    public void unknown(String why) {
        unknown = why;
    }

    /** Whether that code is surely none of these sources: others bring it. */
    public boolean brought() {
        return brought;
    }

    public void brought(boolean byOthers) {
        brought = byOthers;
    }

    public Part body() {
        return body;
    }

    public void body(Part part) {
        body = part;
    }

    /** The methods of classes above that this one overrides. */
    public List<Method> overridden() {
        return overridden;
    }
}
