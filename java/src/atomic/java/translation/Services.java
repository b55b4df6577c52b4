package atomic.java.translation;

import atomic.java.attribution.Attribution;
import atomic.java.ownership.Nodes;
import atomic.java.ownership.Ownership;
import atomic.java.ownership.Uses;
import atomic.java.places.Notes;
import atomic.java.program.Families;
import atomic.java.program.Program;
import atomic.java.skeleton.Field;
import atomic.java.skeleton.Method;
import atomic.java.skeleton.Part;
import atomic.java.skeleton.Path;
import atomic.java.skeleton.Place;
import atomic.java.skeleton.Value;
import com.sun.source.tree.ExpressionTree;
import com.sun.source.tree.Tree;
import java.util.Collection;
import java.util.HashMap;
import java.util.HashSet;
import java.util.List;
import java.util.Map;
import java.util.Set;
import javax.lang.model.element.VariableElement;
import javax.lang.model.type.TypeMirror;

/** What all translators share: what is known of the program, and the methods that stand for a library's. */
final class Services {
    private static final String ONE = "one step";
    private static final String SEVERAL = "several steps";

    private final Program program;
    private final Uses uses;
    private final Ownership ownership;
    private final Nodes nodes;
    private final Families families;
    private final Fields fields;
    private final Methods methods;
    private final Functions functions;
    private final Computing computing;
    private final Immutables immutables = new Immutables(this);
    private final Cursors cursors = new Cursors(this);
    private final Wrappers wrappers = new Wrappers(this);
    private final Substitutes substitutes = new Substitutes(this);
    private final Exits exits = new Exits(this);
    private final LiveObjects liveObjects = new LiveObjects(this);
    private final LiveContents liveContents = new LiveContents(this);
    private final Map<String, Method> helpers = new HashMap<>();
    private final Facts facts = new Facts();
    private final Set<VariableElement> changed = new HashSet<>();
    private final Field state;

    Services(Program program, Methods methods) {
        this.program = program;
        this.methods = methods;
        uses = new Uses(program.attribution());
        ownership = new Ownership(program, uses);
        families = new Families(program);
        ownership.confine(new Promises(program, families)::isAsked);
        nodes = new Nodes(program, ownership);
        fields = new Fields(program, families, uses, ownership, nodes, exits::areTold);
        functions = new Functions(this);
        computing = new Computing(this);
        state = new Field(program.helpers(), program.names().invent("state", "a step"), null, false);
        state.leaveUnguarded();
        program.helpers().add(state);
    }

    Program program() {
        return program;
    }

    Attribution attribution() {
        return program.attribution();
    }

    Uses uses() {
        return uses;
    }

    Ownership ownership() {
        return ownership;
    }

    Nodes nodes() {
        return nodes;
    }

    Families families() {
        return families;
    }

    Fields fields() {
        return fields;
    }

    Functions functions() {
        return functions;
    }

    Computing computing() {
        return computing;
    }

    Methods methods() {
        return methods;
    }

    Substitutes substitutes() {
        return substitutes;
    }

    /** What is known of fields by all that is done with them. */
    Facts facts() {
        return facts;
    }

    /** Whether what a field holds is changed for the first time here, of which more is told then. */
    boolean isFirstChange(VariableElement field) {
        return changed.add(field);
    }

    /** Whether what a field holds is changed by its name somewhere. */
    boolean isChanged(VariableElement field) {
        return changed.contains(field);
    }

    Cursors cursors() {
        return cursors;
    }

    /** Where what a field holds gets out. */
    Exits exits() {
        return exits;
    }

    /** Objects of the sources that methods give their callers. */
    LiveObjects liveObjects() {
        return liveObjects;
    }

    /** Collections within collections that methods give their callers. */
    LiveContents liveContents() {
        return liveContents;
    }

    /** Where all methods are written: what is only known then. */
    void finish(Collection<Method> all) {
        functions.unknownCode().settle();
        exits.finish(all);
        liveContents.finish(all);
        liveObjects.finish(all);
    }

    /** Library objects that keep one of the sources. */
    Wrappers wrappers() {
        return wrappers;
    }

    StableLooks stable() {
        return new StableLooks(this);
    }

    /** The field whose collection an expression gives, where that never changes; else null. */
    VariableElement immutable(ExpressionTree tree) {
        return immutables.of(tree);
    }

    /** Collections that never change. */
    Immutables immutables() {
        return immutables;
    }

    /** A call of what is one step, or several, that Java calls {@code shown}. */
    Part step(String shown, boolean compound, Tree at) {
        new Touches(this).note(at);
        return helper(shown, compound, Method.Doubt.NONE, program.attribution().name(at));
    }

    /** A look that may be no step where some lock is held. */
    Part look(String shown, Tree at) {
        new Touches(this).note(at);
        return helper(shown, false, program.sure() ? Method.Doubt.OPEN : Method.Doubt.NONE, program.attribution().name(at));
    }

    /** The same of what counts as more than it may be, and that is told. */
    Part doubt(Method.Doubt doubt, String shown, boolean compound, Body body, Tree at, String why) {
        tell(Notes.Kind.APPROXIMATED, body, at, why);
        return helper(shown, compound, doubt, program.attribution().name(at));
    }

    /** The same of code that others bring, a method or a function of a type; {@link atomic.java.passes.CodeOfOthers} tells it. */
    Part brought(Method.Doubt doubt, String shown, TypeMirror type, Tree at, String why) {
        Part.Call call = helper(shown, "brought as " + type, doubt, program.attribution().name(at));
        call.target().unknown(why);
        functions.unknownCode().asks(call.target(), type);
        return call;
    }

    /** A call of what is several steps. */
    Part.Call several(String shown, Place place) {
        return helper(shown, SEVERAL, Method.Doubt.NONE, place);
    }

    private Part.Call helper(String shown, boolean compound, Method.Doubt doubt, Place place) {
        return helper(shown, compound ? SEVERAL : ONE, doubt, place);
    }

    private Part.Call helper(String shown, String kind, Method.Doubt doubt, Place place) {
        Method helper = helpers.computeIfAbsent(shown + kind + doubt, key -> {
            Method made = blank(shown, doubt);
            fill(made, !kind.equals(ONE));
            return made;
        });
        return new Part.Call(new Value.Opaque(program.helpers()), helper, List.of(), place);
    }

    /** A library's method that does nothing yet. */
    Method blank(String shown, Method.Doubt doubt) {
        Method made = new Method(program.helpers(), program.names().invent(shown, "=" + shown), null);
        made.doubt(doubt);
        program.helpers().methods().add(made);
        return made;
    }

    /** Makes such a method a step, or several. */
    void fill(Method helper, boolean compound) {
        Value self = new Value.Named(Path.of(new Path.Root(Path.Kind.THIS, "this", program.helpers())));
        Part one = new Part.Access(self, state, true, null);
        helper.body(compound ? Part.sequence(List.of(one, one)) : one);
    }

    /** Something that is told where it may be what a wrong alarm comes from. */
    void hint(Tree at, String text) {
        program.notes().hint(program.attribution().name(at), text);
    }

    /** Tells something of a method at a place. */
    void tell(Notes.Kind kind, Body body, Tree at, String text) {
        program.notes().tell(kind, body.origin(), program.attribution().name(at), text);
    }
}
