package atomic.java.passes;

import atomic.java.places.Names;
import atomic.java.places.Notes;
import atomic.java.program.JavaMethod;
import atomic.java.skeleton.Field;
import atomic.java.skeleton.Method;
import atomic.java.skeleton.Part;
import atomic.java.skeleton.Path;
import atomic.java.skeleton.Place;
import java.util.ArrayList;
import java.util.Collection;
import java.util.Comparator;
import java.util.HashMap;
import java.util.HashSet;
import java.util.LinkedHashMap;
import java.util.LinkedHashSet;
import java.util.List;
import java.util.Map;
import java.util.Set;
import java.util.function.Function;
import java.util.stream.Collectors;
import java.util.stream.IntStream;

/**
 * Guards of fields that say none. A lock that each access of a field holds guards it. One that each write holds and most
 * looks too guards it all the same, and so does one that nearly all accesses hold: an access without it is told as an error,
 * and what is said of other methods holds once that one is mended. One that each write holds and few looks guards the writes alone. With {@code majority} one that most
 * accesses hold guards a field, whether they write or not.
 */
public final class Inference {

    /** Of a hundred accesses, how many have to hold a lock so that most of them do. */
    public static final int MOST = 70;

    private final Collection<Method> methods;
    private final boolean majority;
    private final boolean sure;
    private boolean strict;
    private Function<Method, Object> origin = method -> null;
    private final Map<Field, Tally> tallies = new LinkedHashMap<>();
    private UnderLock underLock;
    private OtherNames names;

    /** Of a hundred accesses, how many have to hold a lock so that the others are told as races, and lack their guard. */
    private static final int MOST_OF_RACE = 50;

    /** How often a field is touched, and how often with each lock, named from its object. */
    private static final class Tally {
        private int all;
        private final Set<Method> methods = new LinkedHashSet<>();
        private final Map<Place, Set<List<Field>>> places = new LinkedHashMap<>();
        private int writes;
        /** The locks at each access of a constructor, whose object others may know by then. */
        private final Set<Set<List<Field>>> making = new HashSet<>();
        /** The locks at each access that may hold one more under another name. */
        private final Set<Set<List<Field>>> doubtful = new HashSet<>();
        private final Map<List<Field>, Integer> held = new HashMap<>();
        private final Map<List<Field>, Integer> heldWriting = new HashMap<>();

        /** The first place at which a lock isn't held, or null. */
        private Place open(List<Field> lock) {
            return places.entrySet().stream().filter(each -> !each.getValue().contains(lock)).map(Map.Entry::getKey).sorted()
                .findFirst().orElse(null);
        }
    }

    /** Where only what is {@code sure} counts, a change that holds its lock is one step. */
    public Inference(Collection<Method> methods, boolean majority, boolean sure) {
        this.methods = methods;
        this.majority = majority;
        this.sure = sure;
    }

    /** Nothing is said that rests on what is told as an error; {@code origins} give the Java method of each method. */
    public Inference strictly(boolean strictly, Function<Method, Object> origins) {
        strict = strictly;
        origin = origins;
        return this;
    }

    /** Gives guards to the fields that have none, and tells of accesses that keep a field from having one. */
    public void guards(Names shown, Notes notes) {
        underLock = new UnderLock(methods);
        Held all = new Held(methods);
        names = new OtherNames(all);
        all.visit(this::count);
        tallies.forEach((field, tally) -> {
            List<Field> lock = field.mayBeGuarded() || sure && field.ordered() ? best(field, tally.held, tally.all) : null;
            List<Field> writing = lock == null ? best(field, tally.heldWriting, tally.writes) : null;
            boolean most = writing != null && isMost(field, tally, writing, MOST_OF_RACE);
            List<Field> charged = most ? writing : lock == null && writing == null ? mostly(field, tally) : null;
            if (lock != null || charged != null) {
                field.guard(new Field.Guard(charged != null ? charged : lock, false));
            } else if (writing != null) {
                field.guard(new Field.Guard(writing, true));
                field.changesWhole(sure);
            }
            if (lock == null && field.mayBeGuarded() && field.place() != null) {
                races(field, tally, shown, notes);
            }
            if (charged != null) {
                mended(field, charged, most ? "looks at " : "changes of ", shown, notes);
            }
        });
    }

    /** The lock that nearly all accesses of a field hold, changes among them, and the others surely don't; else null. */
    private List<Field> mostly(Field field, Tally tally) {
        return tally.held.entrySet().stream().filter(each -> isNamed(each.getKey(), field)
            && tally.making.stream().allMatch(one -> one.contains(each.getKey()))
            && isMost(field, tally, each.getKey(), MOST) && 100 * tally.heldWriting.getOrDefault(each.getKey(), 0)
                >= MOST_OF_RACE * tally.writes).map(Map.Entry::getKey)
            .min((one, other) -> one.equals(other) ? 0 : isBefore(one, other) ? -1 : 1).orElse(null);
    }

    /**
     * Whether so many in a hundred accesses of a field hold a lock, and the others surely don't, so that one without it is an
     * error.
     */
    private boolean isMost(Field field, Tally tally, List<Field> lock, int many) {
        return !strict && field.mayBeGuarded() && field.place() != null && !field.isOfOne()
            && tally.doubtful.stream().allMatch(each -> each.contains(lock))
            && 100 * tally.held.getOrDefault(lock, 0) >= many * tally.all;
    }

    /** What is said of the methods that touch a field rests on what touches it without its lock, which is told as an error. */
    private void mended(Field field, List<Field> lock, String what, Names names, Notes notes) {
        Tally tally = tallies.get(field);
        Place open = tally.open(lock);
        tally.methods.forEach(each -> notes.tell(Notes.Kind.ASSUMED, origin.apply(each), open == null ? field.place() : open,
            what + names.shown(field.name()) + " without its lock are mended: what is said of other methods rests on that"));
    }

    /** The accesses without the lock that most of them hold. */
    private static void races(Field field, Tally tally, Names names, Notes notes) {
        tally.held.entrySet().stream().filter(each -> 100 * each.getValue() >= MOST_OF_RACE * tally.all)
            .max(Comparator.comparingInt((Map.Entry<List<Field>, Integer> each) -> each.getValue())
                .thenComparing(each -> each.getKey(), (one, other) -> isBefore(one, other) ? 1 : -1)).ifPresent(best ->
            tally.places.forEach((place, held) -> {
                if (!held.contains(best.getKey())) {
                    notes.tell(Notes.Kind.DATA_RACE, null, place, names.shown(field.name())
                        + " is touched here without the lock of " + shown(best.getKey(), names) + ", which "
                        + best.getValue() + " of its " + tally.all + " accesses hold");
                }
            }));
    }

    private static String shown(List<Field> lock, Names names) {
        String text = lock.stream().map(each -> names.shown(each.name())).map(each -> each.startsWith("=")
            ? each.substring(1) : each).collect(Collectors.joining("."));
        return text.isEmpty() ? "its object" : text;
    }

    private void count(Method method, Part.Access access, Set<Path> held, Set<Path> shared) {
        if (access.field().guard() != null || access.field().place() == null && !access.field().mayBeGuarded()) {
            return;
        }
        Tally tally = tallies.computeIfAbsent(access.field(), key -> new Tally());
        tally.all++;
        tally.methods.add(method);
        tally.writes += access.write() ? 1 : 0;
        Path receiver = access.receiver().path();
        Set<List<Field>> here = new HashSet<>();
        for (Path lock : receiver == null ? Set.<Path>of() : held) {
            List<Field> rest = Held.behind(lock, receiver);
            if (rest != null && !(access.write() && shared.contains(lock))) {
                here.add(rest);
                tally.held.merge(rest, 1, Integer::sum);
                if (access.write()) {
                    tally.heldWriting.merge(rest, 1, Integer::sum);
                }
            }
        }
        if (Doubts.isCertain(access, underLock.isAlways(method) && method.required().isEmpty())) {
            tally.places.put(access.place(), here);
        }
        if (!isCertain(method, access, held)) {
            tally.doubtful.add(here);
        }
        if (origin.apply(method) instanceof JavaMethod java && java.isConstructor()) {
            tally.making.add(here);
        }
    }

    /** Whether an access surely holds no lock of its field under another name. */
    private boolean isCertain(Method method, Part.Access access, Set<Path> held) {
        boolean dark = underLock.isAlways(method) && method.required().isEmpty();
        return access.receiver().path() != null && !dark && !names.mayBeHeld(access)
            && !(!held.isEmpty() && (access.field().ofNodes() || Doubts.isAnyObject(access)));
    }

    /** The lock that all hold, or most; of several the one that more accesses hold, and then that with the shortest name. */
    private List<Field> best(Field field, Map<List<Field>, Integer> held, int all) {
        Tally tally = tallies.get(field);
        return held.entrySet().stream().filter(each -> all > 0 && isNamed(each.getKey(), field)
                && (majority ? 100 * each.getValue() >= MOST * all : each.getValue() == all)).map(Map.Entry::getKey)
            .min(Comparator.comparing((List<Field> each) -> -held.get(each)).thenComparing(each -> -tally.held.get(each))
                .thenComparing((one, other) -> one.equals(other) ? 0 : isBefore(one, other) ? -1 : 1)).orElse(null);
    }

    /** Whether each object with a field has such a lock, and not only one of a class below. */
    private static boolean isNamed(List<Field> lock, Field field) {
        return lock.isEmpty() || field.owner().fits(lock.get(0).owner());
    }

    /** Whether a lock has the shorter name, or that which comes first of two as long. No two locks have the same. */
    private static boolean isBefore(List<Field> one, List<Field> other) {
        return one.size() != other.size() ? one.size() < other.size() : spelled(one).compareTo(spelled(other)) < 0;
    }

    private static String spelled(List<Field> lock) {
        return lock.stream().map(each -> each.owner().name() + "." + each.name()).collect(Collectors.joining("."));
    }

    /** Lets each method that is called from known places only require the guards that all these places hold. */
    public void requirements() {
        Held held = new Held(methods);
        Set<List<Field>> guards = new HashSet<>();
        methods.forEach(method -> guards(method.body(), guards));
        for (Method method : methods) {
            if (held.isClosed(method)) {
                List<Path> wanted = new ArrayList<>(held.entry(method));
                wanted.removeIf(path -> !endsWithAny(path.fields(), guards));
                method.required().addAll(wanted);
            }
        }
    }

    private static boolean endsWithAny(List<Field> path, Set<List<Field>> guards) {
        return IntStream.rangeClosed(0, path.size()).anyMatch(k -> guards.contains(path.subList(k, path.size())));
    }

    private static void guards(Part part, Set<List<Field>> found) {
        if (part instanceof Part.Access access && access.field().guard() != null) {
            found.add(access.field().guard().lock());
        }
        part.parts().forEach(each -> guards(each, found));
    }
}
