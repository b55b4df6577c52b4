package atomic.java.translation;

import atomic.java.ownership.Uses;
import atomic.java.places.Notes;
import atomic.java.program.JavaClass;
import atomic.java.program.JavaMethod;
import atomic.java.skeleton.Method;
import atomic.java.skeleton.Part;
import atomic.java.skeleton.Value;
import com.sun.source.tree.BindingPatternTree;
import com.sun.source.tree.ExpressionTree;
import com.sun.source.tree.InstanceOfTree;
import com.sun.source.tree.MemberSelectTree;
import com.sun.source.tree.MethodInvocationTree;
import com.sun.source.tree.Tree;
import com.sun.source.tree.TypeCastTree;
import java.util.ArrayList;
import java.util.HashSet;
import java.util.LinkedHashSet;
import java.util.List;
import java.util.Objects;
import java.util.Set;
import java.util.regex.Pattern;
import javax.lang.model.element.ElementKind;
import javax.lang.model.element.RecordComponentElement;
import javax.lang.model.element.VariableElement;
import javax.lang.model.type.ArrayType;
import javax.lang.model.type.DeclaredType;
import javax.lang.model.type.TypeKind;
import javax.lang.model.type.TypeMirror;
import javax.lang.model.type.WildcardType;

/**
 * What collections call of their elements and keys: {@code equals}, {@code hashCode}, {@code compareTo}. Those of classes at
 * hand are written where a collection may call them; that others look at nothing that changes is told once for each class.
 */
final class Comparisons {
    private static final Set<String> COMPARING = Set.of("get", "put", "remove", "contains", "containsKey", "containsValue",
        "indexOf", "lastIndexOf", "putIfAbsent", "getOrDefault", "replace", "computeIfAbsent", "computeIfPresent", "compute",
        "merge", "removeFirstOccurrence", "removeLastOccurrence", "floor", "ceiling", "higher", "lower", "addIfAbsent", "search");
    private static final Set<String> CALLED = Set.of("equals", "hashCode", "compareTo");
    private static final Set<String> ALL = Set.of("equals", "hashCode", "compareTo", "toString");
    private static final Set<String> WHOLE = Set.of("equals", "hashCode", "toString", "sort", "addAll", "removeAll",
        "retainAll", "containsAll", "putAll", "sorted", "distinct");
    private static final Set<String> JOINING = Set.of("append", "insert", "print", "println", "printf", "format",
        "formatted", "valueOf", "join", "toString");

    /** What works on objects, and has none. */
    private static final Pattern FUNCTIONS = Pattern.compile("java\\.util\\.(function\\..*|Comparator|"
        + "concurrent\\.Callable)|java\\.lang\\.Class");

    /** Of more methods than this each place would take most of a text. */
    private static final int MOST_CALLS = 100;

    /** What makes a text of an object. */
    static final Set<String> TEXT = Set.of("toString");

    private final Services services;
    private final Body body;
    private final Set<JavaClass> inside = new HashSet<>();

    Comparisons(Services services, Body body) {
        this.services = services;
        this.body = body;
    }

    /** Whether a call makes a text of its arguments, and so calls their {@code toString}. */
    static boolean joins(String shown) {
        return JOINING.contains(shown.substring(shown.lastIndexOf('.') + 1)) || shown.startsWith("Logger.")
            || shown.startsWith("StringJoiner.");
    }

    /** Writes what a call may call of its arguments, and of the elements of collections among them. */
    void write(LibraryCalls.Called called) {
        String shown = called.shown();
        String type = shown.substring(0, shown.lastIndexOf('.') + 1);
        String name = shown.substring(type.length());
        boolean ordered = type.contains("Set") || type.contains("Priority") && type.contains("Queue");
        boolean compares = COMPARING.contains(name) || shown.equals("Map.of") || shown.equals("Set.of") || type.equals("Objects.") || name.equals("add") && ordered;
        for (ExpressionTree argument : called.arguments()) {
            if (compares) {
                argument(argument, called.at());
            }
            elements(services.attribution().type(argument), called);
        }
        if ((WHOLE.contains(name) || ordered || name.equals("collect") && !isList(called)) && called.at() instanceof MethodInvocationTree call
                && call.getMethodSelect() instanceof MemberSelectTree select) {
            elements(services.attribution().type(select.getExpression()), called);
        }
    }

    /** Whether a stream's elements only go into a list, which compares none. */
    private static boolean isList(LibraryCalls.Called called) {
        return called.arguments().stream().allMatch(each -> each.toString().matches("(Collectors\\.)?to(Unmodifiable)?List\\(\\)"));
    }

    /** A new set, map or queue in order compares the elements that it begins with. */
    void fill(LibraryCalls.Called called) {
        boolean compares = called.shown().contains("Set") || called.shown().contains("Map")
            || called.shown().contains("Priority");
        for (ExpressionTree argument : compares ? called.arguments() : List.<ExpressionTree>of()) {
            elements(services.attribution().type(argument), called);
        }
    }

    /** A call that is given a whole collection may compare its elements, or make texts of them. */
    void elements(TypeMirror type, LibraryCalls.Called called) {
        String name = type instanceof DeclaredType declared ? declared.asElement().toString() : "";
        if (FUNCTIONS.matcher(name).matches()) {
            ((DeclaredType) type).getTypeArguments().stream().map(services.program()::find).filter(Objects::nonNull)
                .forEach(each -> own(each, ALL, called.at()));
        } else if (services.program().find(type) == null && !name.equals("java.util.stream.Collector")) {
            within(type).forEach(each -> own(each, ALL, called.at()));
        }
    }

    private void argument(ExpressionTree argument, Tree at) {
        TypeMirror type = services.attribution().type(argument);
        if (type == null || type.getKind().isPrimitive() || type.getKind() == TypeKind.NULL
                || services.families().shape(type) == null) {
            return;
        }
        JavaClass known = services.program().find(type);
        if (known != null) {
            own(known, CALLED, at);
        } else if (!isConstant(type)) {
            services.program().notes().tell(Notes.Kind.ASSUMED, null, body.self().shape().place(),
                "equals, hashCode and compareTo of keys and elements look at nothing that others write");
        }
    }

    private static boolean isConstant(TypeMirror type) {
        return type instanceof DeclaredType declared && (declared.asElement().getKind() == ElementKind.ENUM
            || declared.asElement().getSimpleName().contentEquals("Class")
            || declared.asElement().getSimpleName().contentEquals("Thread"));
    }

    /** The methods of these names that an object of a class at hand may have: any of them, or none. */
    void own(JavaClass known, Set<String> names, Tree at) {
        names.forEach(name -> parts(known, name, at));
        List<JavaMethod> all = services.families().named(known, names);
        if (all.size() > MOST_CALLS) {
            body.emit(services.doubt(Method.Doubt.ANY, "one of many methods", true, body, at, "limit: more than " + MOST_CALLS
                + " methods may run here, called by a library, so this may do anything"));
        } else if (!all.isEmpty()) {
            Part one = Dispatch.either(all.stream().map(each -> call(each, at)).toList());
            body.emit(names == TEXT ? one : new Part.Repeat(one, services.attribution().name(at)));
        } else {
            new Callbacks(services, body).byLibrary(known, names, at);
        }
    }

    private Part call(JavaMethod method, Tree at) {
        return new Part.Call(new Value.Opaque(method.owner().shape()), services.methods().of(method),
            List.of(new Value.Named(body.statics())), services.attribution().name(at));
    }

    /** An object that is asked here whether it is of a class at hand has that class's methods, whatever its name says. */
    void tested(LibraryCalls.Called called) {
        String name = called.shown().substring(called.shown().lastIndexOf('.') + 1);
        ExpressionTree asked = called.at() instanceof MethodInvocationTree call
            ? call.getMethodSelect() instanceof MemberSelectTree select ? select.getExpression() : null
            : called.at() instanceof ExpressionTree part ? part : null;
        if (asked == null || !ALL.contains(name)
                || !(services.attribution().element(Uses.bare(asked)) instanceof VariableElement variable)) {
            return;
        }
        Set<JavaClass> found = new LinkedHashSet<>();
        for (Tree use : services.uses().of(variable)) {
            Tree parent = services.attribution().parent(use);
            Tree type = parent instanceof TypeCastTree cast ? cast.getType() : parent instanceof InstanceOfTree test
                ? test.getPattern() instanceof BindingPatternTree pattern ? pattern.getVariable().getType() : test.getType()
                : null;
            found.add(type == null ? null : services.program().find(services.attribution().type(type)));
        }
        found.remove(null);
        found.forEach(each -> own(each, TEXT.contains(name) ? TEXT : Set.of(name), called.at()));
    }

    /** A record's own methods, which nobody wrote, call those of its parts. */
    void parts(JavaClass known, String name, Tree at) {
        boolean written = !ALL.contains(name) || known.methods().stream().anyMatch(each ->
            each.symbol().getSimpleName().contentEquals(name));
        boolean begun = written || !inside.add(known);
        for (var part : begun ? List.<RecordComponentElement>of() : known.symbol().getRecordComponents()) {
            within(part.asType()).forEach(type -> own(type, Set.of(name), at));
        }
        inside.remove(begun ? null : known);
    }

    /** The class at hand that a type is, or those that it has as its parts: a list's text is that of its elements. */
    private Set<JavaClass> within(TypeMirror type) {
        JavaClass known = services.program().find(type);
        Set<JavaClass> found = new LinkedHashSet<>();
        if (known != null) {
            found.add(known);
        } else if (type instanceof DeclaredType declared) {
            declared.getTypeArguments().forEach(each -> found.addAll(within(each)));
        } else if (type instanceof ArrayType array) {
            found.addAll(within(array.getComponentType()));
        } else if (type instanceof WildcardType wildcard && wildcard.getExtendsBound() != null) {
            found.addAll(within(wildcard.getExtendsBound()));
        }
        return found;
    }

    private static boolean isFunction(JavaClass known) {
        return known != null && known.symbol().getInterfaces().stream().anyMatch(each ->
            ((DeclaredType) each).asElement().getAnnotationMirrors().stream().anyMatch(mark ->
                mark.getAnnotationType().toString().equals("java.lang.FunctionalInterface")));
    }

    /** What a call may call of an object that it is given to compare with: the methods of the library's that it has. */
    void comparator(ExpressionTree argument, Tree at) {
        JavaClass known = services.program().find(services.attribution().type(argument));
        List<Part> calls = new ArrayList<>();
        for (JavaMethod method : isFunction(known) ? known.methods() : List.<JavaMethod>of()) {
            if (method.isVirtual() && method.isOpen() && !method.isAbstract()) {
                calls.add(call(method, at));
            }
        }
        if (!calls.isEmpty()) {
            body.emit(new Part.Repeat(Dispatch.either(calls), services.attribution().name(at)));
        }
    }
}
