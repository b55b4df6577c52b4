package atomic.java.passes;

import atomic.java.places.Notes;
import atomic.java.program.JavaClass;
import atomic.java.program.JavaMethod;
import atomic.java.program.Program;
import atomic.java.skeleton.Method;
import atomic.java.skeleton.Place;
import java.util.ArrayList;
import java.util.List;
import java.util.Set;
import java.util.stream.Collectors;
import javax.lang.model.element.Element;
import javax.lang.model.element.ElementKind;
import javax.lang.model.element.Modifier;
import javax.lang.model.element.VariableElement;

/** Tells what code outside the files might do that the verdict doesn't count on. Each class is told of once. */
public final class ClosedWorld {
    private static final int MOST_NAMES = 4;

    private final Program program;
    private final Set<JavaMethod> onlyOfNew;

    /** The methods {@code onlyOfNew} are called on objects alone that nobody else knows yet. */
    public ClosedWorld(Program program, Set<JavaMethod> onlyOfNew) {
        this.program = program;
        this.onlyOfNew = onlyOfNew;
    }

    /** Tells of all classes that have fields or methods which the skeleton names. */
    public void run() {
        for (JavaClass each : program.classes()) {
            List<String> doings = new ArrayList<>();
            String fields = openFields(each);
            if (!fields.isEmpty()) {
                doings.add("touches " + fields);
            }
            String methods = openMethods(each);
            if (!methods.isEmpty()) {
                doings.add("calls " + methods);
            }
            if (mayBeExtended(each)) {
                doings.add("extends this class");
            }
            boolean judged = each.shape().methods().stream().anyMatch(method -> method.place() != null);
            if (!doings.isEmpty() && judged) {
                program.notes().tell(Notes.Kind.ASSUMED, null, each.shape().place(),
                    "no code outside these files " + String.join(", or ", doings));
            }
        }
    }

    private String openFields(JavaClass each) {
        List<String> names = new ArrayList<>();
        for (Element member : each.symbol().getEnclosedElements()) {
            if (member instanceof VariableElement && member.getKind() == ElementKind.FIELD
                    && !member.getModifiers().contains(Modifier.PRIVATE)
                    && (!member.getModifiers().contains(Modifier.FINAL)
                        || program.library().hasContents(member.asType()))) {
                names.add(member.getSimpleName().toString());
            }
        }
        return listed(names);
    }

    /** The methods that others might call without the locks that each call here holds, or on an object that others know. */
    private String openMethods(JavaClass each) {
        Set<Place> holding = each.shape().methods().stream().filter(method -> method.closed() && !method.required().isEmpty()
            && method.place() != null).map(Method::place).collect(Collectors.toSet());
        return listed(each.methods().stream().filter(java -> (holding.contains(java.place()) || onlyOfNew.contains(java))
            && !java.isPrivate() && !java.isConstructor()).map(java -> java.symbol().getSimpleName().toString()).distinct().toList());
    }

    private static String listed(List<String> names) {
        int more = names.size() - MOST_NAMES;
        return more <= 1 ? String.join(", ", names)
            : String.join(", ", names.subList(0, MOST_NAMES)) + " and " + more + " others";
    }

    private static boolean mayBeExtended(JavaClass each) {
        boolean closed = each.symbol().getKind() != ElementKind.CLASS || each.symbol().getSimpleName().isEmpty()
            || each.symbol().getModifiers().contains(Modifier.FINAL)
            || each.symbol().getModifiers().contains(Modifier.PRIVATE);
        return !closed && each.methods().stream().anyMatch(ClosedWorld::mayBeOverridden)
            && each.methods().stream().anyMatch(method -> method.isConstructor() && !method.isPrivate());
    }

    private static boolean mayBeOverridden(JavaMethod method) {
        return method.isVirtual() && !method.symbol().getModifiers().contains(Modifier.FINAL);
    }
}
