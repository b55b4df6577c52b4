package atomic.java.translation;

import atomic.java.program.JavaClass;
import atomic.java.program.JavaMethod;
import java.util.HashMap;
import java.util.List;
import java.util.Map;
import java.util.stream.Collectors;
import javax.lang.model.element.Element;
import javax.lang.model.element.ExecutableElement;
import javax.lang.model.element.Modifier;
import javax.lang.model.element.Name;
import javax.lang.model.element.TypeElement;
import javax.lang.model.type.TypeMirror;
import javax.lang.model.util.Types;

/** The methods of the sources that stand in the place of a library's. Each is looked for once. */
final class Substitutes {
    private final Services services;
    private final Map<Kin, List<JavaMethod>> ofKin = new HashMap<>();
    private final Map<Overridden, List<JavaMethod>> inPlace = new HashMap<>();
    private final Map<TypeElement, Map<Name, List<ExecutableElement>>> members = new HashMap<>();

    /** A class, and the library's type whose methods it may have its own of. */
    private record Kin(JavaClass known, TypeElement wanted) { }

    /** A library's method, and the type of the object that it is called on. */
    private record Overridden(ExecutableElement symbol, Element type) { }

    Substitutes(Services services) {
        this.services = services;
    }

    /** The methods of a class, and of those above and below it, in the place of some of a library's type. */
    List<JavaMethod> of(JavaClass known, TypeElement wanted) {
        return ofKin.computeIfAbsent(new Kin(known, wanted), key -> services.families().kin(known).stream()
            .flatMap(each -> each.methods().stream()).filter(each -> isBody(each) && replaces(each, wanted)).toList());
    }

    /** The methods in the place of a library's, of classes of which an object of a type may be. */
    List<JavaMethod> of(ExecutableElement symbol, TypeMirror type) {
        Types types = services.attribution().types();
        TypeMirror erased = types.erasure(type);
        return inPlace.computeIfAbsent(new Overridden(symbol, types.asElement(erased)), key ->
            services.program().named(symbol.getSimpleName()).stream().filter(each -> isBody(each)
                && types.isSubtype(types.erasure(each.owner().symbol().asType()), erased) && overrides(each, symbol)).toList());
    }

    private static boolean isBody(JavaMethod method) {
        return method.isVirtual() && !method.isAbstract();
    }

    /** Whether a method stands in the place of one of a library's type, other than those that each object has. */
    private boolean replaces(JavaMethod method, TypeElement wanted) {
        return members.computeIfAbsent(wanted, this::members).getOrDefault(method.symbol().getSimpleName(), List.of())
            .stream().anyMatch(each -> overrides(method, each));
    }

    private Map<Name, List<ExecutableElement>> members(TypeElement wanted) {
        return services.attribution().elements().getAllMembers(wanted).stream()
            .filter(each -> each instanceof ExecutableElement && !each.getModifiers().contains(Modifier.STATIC)
                && !each.getEnclosingElement().toString().equals("java.lang.Object"))
            .map(ExecutableElement.class::cast).collect(Collectors.groupingBy(ExecutableElement::getSimpleName));
    }

    private boolean overrides(JavaMethod method, ExecutableElement above) {
        return services.attribution().elements().overrides(method.symbol(), above, method.owner().symbol());
    }
}
