package atomic.java.translation;

import java.util.HashMap;
import java.util.Map;
import java.util.function.Predicate;
import javax.lang.model.element.VariableElement;

/**
 * What is known of a field by all that is done with it. Each question is asked once: else each of many uses of a field would
 * look at all the others.
 */
final class Facts {
    private record Question(String words, VariableElement field) { }

    private final Map<Question, Boolean> answers = new HashMap<>();

    /** The answer to a question about a field, which {@code find} gives the first time. */
    boolean of(VariableElement field, String words, Predicate<VariableElement> find) {
        Question asked = new Question(words, field);
        Boolean known = answers.get(asked);
        if (known == null) {
            known = find.test(field);
            answers.put(asked, known);
        }
        return known;
    }
}
