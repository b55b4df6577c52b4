// A list within a map of a field is changed under the lock. Each way in which a method lets it out is refused.
// judged with: --public --infer
import java.util.ArrayList;
import java.util.Collection;
import java.util.Collections;
import java.util.HashMap;
import java.util.Iterator;
import java.util.List;
import java.util.Map;
import java.util.Optional;
import java.util.function.Consumer;
import java.util.function.Function;
import java.util.function.Supplier;
import java.util.stream.Collectors;
import java.util.stream.Stream;

public class WaysOfContents {
    public record Page(String name, List<String> lines) { }

    public static final class Found extends RuntimeException {
        private final transient List<String> lines;

        Found(List<String> lines) {
            this.lines = lines;
        }

        public List<String> lines() {
            return lines;
        }
    }

    private final Map<String, List<String>> all = new HashMap<>();
    private static List<String> last = List.of();

    public synchronized void add(String key, String line) {
        all.computeIfAbsent(key, k -> new ArrayList<>()).add(line);
    }

    private List<String> find(String key) {
        return all.get(key);
    }

    private List<String> orEmpty(String key) {
        List<String> found = find(key);
        return found == null ? Collections.emptyList() : found;
    }

    public synchronized List<String> byHelper(String key) { // refused
        return find(key);
    }

    public synchronized List<String> byTwoHelpers(String key) { // refused
        return orEmpty(key);
    }

    @SuppressWarnings("unchecked")
    public synchronized List<String>[] inArray(String key) { // refused
        return new List[] {all.get(key)};
    }

    public synchronized Object[] inElement(String key) { // refused
        Object[] made = new Object[1];
        made[0] = all.get(key);
        return made;
    }

    public synchronized void inCallersArray(String key, Object[] out) { // refused
        out[0] = all.get(key);
    }

    public synchronized void inCallersList(String key, List<List<String>> out) { // refused
        out.add(all.get(key));
    }

    public synchronized void allInCallersList(List<List<String>> out) { // refused
        out.addAll(all.values());
    }

    public synchronized void byOneIntoList(List<List<String>> out) { // refused
        for (List<String> each : all.values()) {
            out.add(each);
        }
    }

    public synchronized void byEntriesIntoMap(Map<String, List<String>> out) { // refused
        for (Map.Entry<String, List<String>> each : all.entrySet()) {
            out.put(each.getKey(), each.getValue());
        }
    }

    public synchronized void byFunctionIntoMap(Map<String, List<String>> out) { // refused
        all.forEach((key, lines) -> out.put(key, lines));
    }

    public synchronized void byNameIntoMap(Map<String, List<String>> out) { // refused
        all.forEach(out::put);
    }

    public synchronized List<List<String>> inOwnList(String key) { // refused
        List<List<String>> made = new ArrayList<>();
        made.add(all.get(key));
        return made;
    }

    public synchronized Page inRecord(String key) { // refused
        return new Page(key, all.get(key));
    }

    public synchronized Page inRecordByLocal(String key) { // refused
        List<String> found = all.get(key);
        Page page = new Page(key, found);
        return page;
    }

    public synchronized Optional<List<String>> inOptional(String key) { // refused
        return Optional.ofNullable(all.get(key));
    }

    public synchronized Optional<Page> inRecordInOptional(String key) { // refused
        return Optional.ofNullable(all.get(key)).map(found -> new Page(key, found));
    }

    public synchronized Supplier<List<String>> inLambda(String key) { // refused
        List<String> found = all.get(key);
        return () -> found;
    }

    public synchronized Function<Integer, String> inReference(String key) { // refused
        return all.get(key)::get;
    }

    public synchronized Iterable<String> inAnonymous(String key) { // refused
        List<String> found = all.get(key);
        return new Iterable<>() {
            @Override
            public Iterator<String> iterator() {
                return found.iterator();
            }
        };
    }

    public synchronized Stream<String> inStream(String key) { // refused
        return all.get(key).stream().filter(line -> !line.isEmpty());
    }

    public synchronized Iterator<String> inIterator(String key) { // refused
        return all.get(key).iterator();
    }

    public synchronized List<String> inView(String key) { // refused
        return all.get(key).subList(0, 1);
    }

    public synchronized Map.Entry<String, List<String>> inEntry(String key) { // refused
        return Map.entry(key, all.get(key));
    }

    public synchronized Stream<List<String>> inStreamOfThese() { // refused
        return new ArrayList<>(all.values()).stream();
    }

    public synchronized List<List<String>> sorted() { // refused
        return all.values().stream().sorted((one, two) -> one.size() - two.size()).collect(Collectors.toList());
    }

    public synchronized Map<Integer, List<List<String>>> grouped() { // refused
        return all.values().stream().collect(Collectors.groupingBy(each -> each.size()));
    }

    public synchronized Map<String, List<String>> collected() { // refused
        return all.entrySet().stream().collect(Collectors.toMap(each -> each.getKey(), each -> each.getValue()));
    }

    public synchronized Map<String, List<String>> collectedByName() { // refused
        return all.entrySet().stream().collect(Collectors.toMap(Map.Entry::getKey, Map.Entry::getValue));
    }

    public synchronized Collection<List<String>> longest() { // refused
        List<String> longest = null;
        for (List<String> each : all.values()) {
            if (longest == null || each.size() > longest.size()) {
                longest = each;
            }
        }
        return Collections.singleton(longest);
    }

    public synchronized void toFunction(String key, Consumer<List<String>> user) { // refused
        user.accept(all.get(key));
    }

    public synchronized void thrown(String key) { // refused
        throw new Found(all.get(key));
    }

    public synchronized List<String> required(String key) { // refused
        return java.util.Objects.requireNonNull(all.get(key), key);
    }

    public synchronized List<String> orElse(String key) { // refused
        return Optional.ofNullable(all.get(key)).orElse(List.of());
    }

    public synchronized List<String> first() { // refused
        return all.values().stream().filter(each -> !each.isEmpty()).findFirst().orElseThrow();
    }

    public synchronized List<String> bySwitch(String key, int kind) { // refused
        return switch (kind) {
            case 0 -> List.of();
            default -> all.get(key);
        };
    }

    private static <T> void keep(List<T> out, T one) {
        out.add(one);
    }

    public synchronized void byHelperIntoList(String key, List<List<String>> out) { // refused
        keep(out, all.get(key));
    }
}
