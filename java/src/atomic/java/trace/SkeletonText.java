package atomic.java.trace;

import atomic.java.skeleton.Method;
import atomic.java.skeleton.Part;
import atomic.java.skeleton.Place;
import java.util.ArrayList;
import java.util.List;
import java.util.Map;
import java.util.Set;

/**
 * A skeleton's methods as lines for those who compare logs with it: {@code method LINE:COLUMN NAME}, and behind it the body in
 * parentheses: {@code (seq ..)}, {@code (or A B)}, {@code (rep A)}, {@code (sync LINE:COLUMN A)}, {@code (read LINE:COLUMN)},
 * {@code (write LINE:COLUMN)}, {@code (wait)} and {@code (call LINE:COLUMN TARGET)}, where TARGET is the number of a line, from 0 on.
 * Behind the methods stands {@code repeat LINE:COLUMN LINE:COLUMN} for each look that is no step where the second place is next,
 * {@code helper LINE:COLUMN -} for each method whose body is written where it is called, and {@code lent LINE:COLUMN -} where a
 * method uses what it is given, whose steps stand where that is given to it.
 */
final class SkeletonText {
    private final List<Method> methods;
    private final Map<Place, Place> repeats;
    private final Set<Place> helpers;
    private final Set<Place> lent;

    SkeletonText(List<Method> methods, Map<Place, Place> repeats, Set<Place> helpers, Set<Place> lent) {
        this.methods = methods;
        this.repeats = repeats;
        this.helpers = helpers;
        this.lent = lent;
    }

    List<String> lines() {
        List<String> lines = new ArrayList<>();
        for (Method method : methods) {
            lines.add("method " + place(method.place()) + " " + method.name() + "\t" + text(method.body()));
        }
        repeats.forEach((look, again) -> lines.add("repeat " + place(look) + " " + place(again)));
        helpers.forEach(each -> lines.add("helper " + place(each) + " -"));
        lent.forEach(each -> lines.add("lent " + place(each) + " -"));
        return lines;
    }

    private static String place(Place place) {
        return place == null ? "-" : place.line() + ":" + place.column();
    }

    private String text(Part part) {
        StringBuilder text = new StringBuilder("(").append(word(part));
        part.parts().forEach(each -> text.append(' ').append(text(each)));
        return text.append(')').toString();
    }

    private String word(Part part) {
        if (part instanceof Part.Either) {
            return "or";
        } else if (part instanceof Part.Repeat) {
            return "rep";
        } else if (part instanceof Part.Region region) {
            return "sync " + place(region.place());
        } else if (part instanceof Part.Access access) {
            return (access.write() ? "write " : "read ") + place(access.place());
        } else if (part instanceof Part.Call call) {
            return "call " + place(call.place()) + " " + methods.indexOf(call.target());
        } else if (part instanceof Part.Wait) {
            return "wait";
        }
        return "seq";
    }
}
