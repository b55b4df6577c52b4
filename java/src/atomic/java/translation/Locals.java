package atomic.java.translation;

import atomic.java.program.JavaClass;
import atomic.java.skeleton.Part;
import atomic.java.skeleton.Shape;
import atomic.java.skeleton.Value;
import com.sun.source.tree.BindingPatternTree;
import com.sun.source.tree.Tree;
import com.sun.source.tree.VariableTree;
import com.sun.source.util.TreeScanner;
import java.util.List;
import javax.lang.model.element.Element;
import javax.lang.model.element.RecordComponentElement;
import javax.lang.model.element.VariableElement;

/** What the locals of a method stand for. */
final class Locals {
    /** The kind of a record's pattern, for which Java 17 has no name. */
    private static final String RECORD_PATTERN = "DECONSTRUCTION_PATTERN";

    private final Services services;
    private final Body body;

    Locals(Services services, Body body) {
        this.services = services;
        this.body = body;
    }

    /** Declares a local whose first value is known; null where it has none yet. */
    void declare(VariableTree tree, Value first) {
        if (services.attribution().element(tree) instanceof VariableElement variable) {
            body.locals().put(variable, value(variable, first == null ? Value.OPAQUE : first));
        }
    }

    /** A local that is assigned in one place alone may show the contents of a field from here on. */
    void assign(Element target, Value value) {
        if (value instanceof Value.Owned && target instanceof VariableElement variable && services.uses().isSettled(variable)
                && !(body.locals().get(variable) instanceof Value.Fresh)) {
            body.locals().put(variable, value);
        }
    }

    /** Declares what a pattern names, also the parts of a record, for which it calls the accessors. */
    void declareAll(Tree pattern) {
        new TreeScanner<Void, Void>() {
            @Override
            public Void scan(Tree tree, Void nothing) {
                if (tree != null && tree.getKind().name().equals(RECORD_PATTERN)) {
                    accessors(tree);
                }
                return super.scan(tree, nothing);
            }

            @Override
            public Void visitBindingPattern(BindingPatternTree tree, Void nothing) {
                declare(tree.getVariable(), null);
                return null;
            }
        }.scan(pattern, null);
    }

    /** The accessors of a record that somebody wrote: a pattern calls one after the other, up to the first part that doesn't fit. */
    private void accessors(Tree pattern) {
        JavaClass known = services.program().find(services.attribution().type(pattern));
        List<? extends RecordComponentElement> parts = known == null ? List.of() : known.symbol().getRecordComponents();
        for (RecordComponentElement part : parts) {
            known.methods().stream().filter(each -> each.symbol().getSimpleName().equals(part.getSimpleName())
                && each.symbol().getParameters().isEmpty()).forEach(each -> body.emit(new Part.Either(new Part.Call(
                    new Value.Opaque(known.shape()), services.methods().of(each), List.of(new Value.Named(body.statics())),
                    services.attribution().name(pattern)), Part.NOTHING)));
        }
    }

    private Value value(VariableElement variable, Value first) {
        String name = variable.getSimpleName().toString();
        Shape shape = services.families().shape(variable.asType());
        JavaClass type = services.program().find(variable.asType());
        if (shape == null || services.nodes().container(type) != null) {
            return Value.OPAQUE;
        } else if (services.ownership().escapes(variable) > 0) {
            return new Value.Fresh(shape);
        } else if (!services.uses().isSettled(variable)) {
            return shape == services.program().object() ? Value.OPAQUE : body.declareLoose(name, shape);
        } else if (first instanceof Value.Owned || first instanceof Value.Given) {
            return first;
        } else if (first.path() != null && first.path().type().fits(shape)) {
            return first;
        }
        return body.declare(name, shape);
    }

    /** The value of a local or parameter where it is read. */
    Value read(VariableElement variable, long offset) {
        if (offset >= services.ownership().taken().from(variable)) {
            return services.ownership().taken().isAlone(variable, offset) ? new Value.Fresh(null) : Value.OPAQUE;
        }
        VariableElement unchanging = services.immutables().of(variable);
        if (unchanging != null) {
            return services.fields().unchanging(unchanging);
        }
        if (services.ownership().hasTakenOut(variable)) {
            return new Value.Fresh(null);
        }
        JavaClass node = services.program().find(variable.asType());
        JavaClass container = services.nodes().container(node);
        if (container != null) {
            Value holder = body.object(container, offset);
            return holder == null ? Value.OPAQUE : new Value.Node(holder);
        }
        Value known = body.locals().get(variable);
        VariableElement field = services.ownership().holding(variable);
        if (field != null && !(known instanceof Value.Fresh && services.ownership().escapes(variable) > 0
                && body.isFreshAt(variable, offset))) {
            return new Accesses(services, body).confined(field, offset);
        }
        if (known == null) {
            return body.captured(variable);
        } else if (known instanceof Value.Fresh fresh && services.ownership().escapes(variable) > 0
                && !body.isFreshAt(variable, offset)) {
            return new Value.Opaque(fresh.type());
        }
        return known;
    }
}
