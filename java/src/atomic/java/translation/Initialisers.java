package atomic.java.translation;

import atomic.java.program.JavaClass;
import atomic.java.skeleton.Method;
import atomic.java.skeleton.Part;
import atomic.java.skeleton.Value;
import com.sun.source.tree.BlockTree;
import com.sun.source.tree.ExpressionStatementTree;
import com.sun.source.tree.IdentifierTree;
import com.sun.source.tree.MethodInvocationTree;
import com.sun.source.tree.MethodTree;
import com.sun.source.tree.Tree;
import com.sun.source.tree.VariableTree;
import java.util.LinkedHashSet;
import java.util.List;
import java.util.Set;
import javax.lang.model.element.ElementKind;
import javax.lang.model.element.Modifier;
import javax.lang.model.element.VariableElement;
import javax.lang.model.type.TypeMirror;

/** What runs before a constructor's own statements, and when a class is first used. */
final class Initialisers {
    private final Services services;

    Initialisers(Services services) {
        this.services = services;
    }

    /** Whether a constructor begins with a call of another one of its class, or of the class above. */
    static boolean callsAnother(MethodTree constructor) {
        return !constructor.getBody().getStatements().isEmpty()
            && constructor.getBody().getStatements().get(0) instanceof ExpressionStatementTree statement
            && statement.getExpression() instanceof MethodInvocationTree call
            && call.getMethodSelect() instanceof IdentifierTree name
            && (name.getName().contentEquals("super") || name.getName().contentEquals("this"));
    }

    /** The initialisers of an object's fields, in a constructor's body. */
    void run(JavaClass self, Body body) {
        run(self, body, false);
    }

    private void run(JavaClass self, Body body, boolean statics) {
        Statements statements = new Statements(services, body);
        Expressions expressions = new Expressions(services, body);
        Accesses accesses = new Accesses(services, body);
        if (!statics && self.symbol().getKind() == ElementKind.RECORD) {
            accesses.parts(self);
        }
        for (Tree member : self.tree().getMembers()) {
            if (member instanceof VariableTree variable && variable.getInitializer() != null
                    && (variable.getModifiers().getFlags().contains(Modifier.STATIC) || self.isInterface()) == statics) {
                expressions.value(variable.getInitializer());
                if (services.attribution().element(variable) instanceof VariableElement field) {
                    accesses.begin(field, variable);
                }
            } else if (member instanceof BlockTree block && block.isStatic() == statics) {
                statements.all(block.getStatements());
            }
        }
    }

    /** A use of a class may be the first one, which runs what its static initialisers do besides setting its own fields. */
    void start(JavaClass each, Body body, Tree at) {
        for (JavaClass used : begun(each)) {
            boolean begun = used == body.self() || used == body.starting()
                || services.families().isBelow(body.self(), used);
            if (!begun && hasStaticCode(used)) {
                Method target = services.methods().initialiser(used);
                Value statics = new Value.Named(body.statics());
                body.emit(new Part.Either(new Part.Call(statics, target, List.of(), services.attribution().name(at)),
                    Part.NOTHING));
            }
        }
    }

    /** A class, those above it, and the interfaces of all of them that have code of their own to inherit. */
    private Set<JavaClass> begun(JavaClass each) {
        Set<JavaClass> all = new LinkedHashSet<>();
        for (JavaClass used = each; used != null; used = services.families().above(used)) {
            all.add(used);
            if (!each.isInterface()) {
                interfaces(used, all);
            }
        }
        return all;
    }

    private void interfaces(JavaClass each, Set<JavaClass> all) {
        for (TypeMirror type : each.symbol().getInterfaces()) {
            JavaClass above = services.program().find(type);
            if (above != null) {
                if (above.methods().stream().anyMatch(method -> method.isVirtual() && !method.isAbstract())) {
                    all.add(above);
                }
                interfaces(above, all);
            }
        }
    }

    private static boolean hasStaticCode(JavaClass each) {
        return each.tree().getMembers().stream().anyMatch(member -> member instanceof BlockTree block && block.isStatic()
            || member instanceof VariableTree variable && variable.getInitializer() != null
                && (variable.getModifiers().getFlags().contains(Modifier.STATIC) || each.isInterface())
                && !(variable.getInitializer() instanceof com.sun.source.tree.LiteralTree));
    }

    /** Writes the static initialisers of a class. */
    void write(JavaClass each, Method target) {
        Body body = new Body(services, target, new Body.Owner(each, null, each), 0);
        body.start(each);
        target.body(body.collect(() -> run(each, body, true)));
    }
}
