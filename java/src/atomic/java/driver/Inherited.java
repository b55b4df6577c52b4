package atomic.java.driver;

import atomic.java.program.JavaMethod;
import atomic.java.program.Program;
import atomic.java.skeleton.Method;
import java.util.ArrayList;
import java.util.Comparator;
import java.util.HashMap;
import java.util.List;
import java.util.Map;
import java.util.regex.Matcher;
import java.util.regex.Pattern;

/**
 * The errors of methods that are judged as those of several classes, which have them from a hidden base. Where each of these
 * classes has the error, it is told once, in the name of the class that declares the method.
 */
final class Inherited {
    private final Program program;
    private final Map<JavaMethod, List<Method>> methods = new HashMap<>();

    Inherited(Program program, Map<Method, JavaMethod> judged) {
        this.program = program;
        judged.forEach((method, java) -> methods.computeIfAbsent(java, key -> new ArrayList<>()).add(method));
        methods.values().removeIf(each -> each.size() < 2);
    }

    /** The lines with each such error told once. */
    List<String> told(List<String> lines) {
        if (methods.isEmpty()) {
            return lines;
        }
        Map<String, List<String>> blocks = Certainty.blocks(lines);
        methods.forEach((java, heirs) -> join(blocks, java, heirs.stream().map(this::name).toList()));
        return blocks.values().stream().flatMap(List::stream).toList();
    }

    private String name(Method method) {
        String shown = program.names().shown(method.name());
        return shown.startsWith("=") ? shown.substring(1) : shown;
    }

    /** Leaves one of the errors of all heirs, if possible one that is certain, in the name of the base. */
    private void join(Map<String, List<String>> blocks, JavaMethod java, List<String> heirs) {
        Map<String, String> keys = new HashMap<>();
        heirs.forEach(heir -> keys.put(java.place() + Certainty.ERROR + heir + " is declared atomic", heir));
        if (!blocks.keySet().containsAll(keys.keySet())) {
            return;
        }
        String kept = keys.keySet().stream().min(Comparator.comparing((String each) -> Certainty.isDoubted(blocks.get(each)))
            .thenComparing(each -> each)).orElseThrow();
        Pattern heir = Pattern.compile("\\b" + Pattern.quote(keys.get(kept)) + "\\b");
        String base = program.names().shown(java.owner().shape().name()) + "." + java.symbol().getSimpleName();
        blocks.get(kept).replaceAll(line -> heir.matcher(line).replaceAll(Matcher.quoteReplacement(base)));
        keys.keySet().stream().filter(each -> !each.equals(kept)).forEach(blocks::remove);
    }
}
