package atomic.java.driver;

import atomic.java.Main;
import atomic.java.attribution.Attribution;
import atomic.java.attribution.Javac;
import atomic.java.options.Options;
import atomic.java.options.Refusal;
import atomic.java.passes.ClosedWorld;
import atomic.java.passes.CodeOfOthers;
import atomic.java.passes.Doubts;
import atomic.java.passes.Inference;
import atomic.java.passes.Limits;
import atomic.java.passes.Marking;
import atomic.java.passes.OnlyOfNew;
import atomic.java.passes.OtherNames;
import atomic.java.passes.Pruning;
import atomic.java.passes.Races;
import atomic.java.passes.ReadLocks;
import atomic.java.passes.Scopes;
import atomic.java.passes.Unwritten;
import atomic.java.passes.Waiting;
import atomic.java.places.Text;
import atomic.java.places.Writer;
import atomic.java.program.JavaMethod;
import atomic.java.program.Program;
import atomic.java.skeleton.Method;
import atomic.java.skeleton.Place;
import atomic.java.trace.Copies;
import atomic.java.translation.Methods;
import java.io.IOException;
import java.nio.file.Files;
import java.nio.file.Path;
import java.util.ArrayList;
import java.util.HashMap;
import java.util.List;
import java.util.Map;
import java.util.Set;

/** One run of the program: from the words of the command line to the answer. */
public final class Run {
    /** Of so many methods some are refused, so what is left without what is approximated is made ready at once. */
    private static final int MANY = 500;

    private final Options options;

    public Run(Options options) {
        this.options = options;
    }

    /** Writes the answer, and gives the status. */
    public int judge(StringBuilder answer) {
        Attribution attribution = new Javac(options).attribute();
        Program program = new Program(attribution, options, false);
        Methods methods = skeleton(program);
        if (options.log() != null) {
            new Copies(program, tree -> methods.promises(program.method(attribution.element(tree))))
                .write(options.log(), all(program), methods.repeats(), methods.helpers());
        }
        if (options.explain() != null) {
            return explain(program, methods, answer);
        }
        try (Checker checker = new Checker()) {
            return judge(attribution, program, methods, checker, answer);
        }
    }

    private int judge(Attribution attribution, Program program, Methods methods, Checker checker, StringBuilder answer) {
        boolean approximates = program.notes().approximates();
        boolean many = approximates && program.methods().size() > MANY;
        Judging judging = new Judging(program, methods, checker);
        Beside asking = new Beside(many ? judging::askAndFinish : judging::ask, Main.STACK);
        Judging certain = many ? certain(attribution, checker) : null;
        asking.join();
        if (approximates && !many && judging.isRefused()) {
            certain = certain(attribution, checker);
        }
        judging.finish();
        emit(judging.texts(), attribution);
        List<String> errors = judging.lines();
        if (judging.status() != 0) {
            certain = certain == null && approximates ? certain(attribution, checker) : certain;
            errors = lines(judging, certain == null ? judging : certain);
        }
        errors = new Inherited(program, methods.judged()).told(errors);
        program.notes().reveal(Certainty.doubted(errors));
        if (!options.quiet()) {
            program.notes().lines().forEach(line -> answer.append(line).append('\n'));
        }
        errors.forEach(line -> answer.append(line).append('\n'));
        long promised = program.methods().stream().filter(methods::promises).count();
        System.err.println(new Summary(program.notes(), methods).line(judging, (int) promised));
        hint(program, methods, promised);
        return judging.status();
    }

    private Methods skeleton(Program program) {
        Methods methods = new Methods(program);
        methods.translate();
        refine(program, methods);
        return methods;
    }

    /**
     * What is left without what is approximated. It is made while the whole is written or the answers about it are awaited,
     * with which it shares nothing but what javac said, and on the thread that asks javac.
     */
    private Judging certain(Attribution attribution, Checker checker) {
        Program rest = new Program(attribution, options, true);
        return new Judging(rest, skeleton(rest), checker);
    }

    /** The errors, each with what else is refused for certain. */
    private static List<String> lines(Judging judging, Judging certain) {
        if (certain != judging) {
            certain.ask(judging.lines());
            certain.finish();
        }
        Certainty certainty = new Certainty(judging.lines(), certain.lines());
        return certainty.lines(witnesses(judging, certain, certainty.open()));
    }

    /** Who can tell the interruption, in the whole and without what is approximated: the two share nothing that changes. */
    private static Map<String, String> witnesses(Judging judging, Judging certain, Set<String> places) {
        Map<String, String> witnesses = new HashMap<>();
        Beside whole = new Beside(() -> witnesses.putAll(judging.witnesses(places)), Main.STACK);
        Set<String> sure = certain == judging ? places : certain.witnesses(places).keySet();
        whole.join();
        witnesses.keySet().retainAll(sure);
        return witnesses;
    }

    /** Without promises or guards little is judged: what would help is told, beside the answer. */
    private void hint(Program program, Methods methods, long promised) {
        if (program.methods().isEmpty()) {
            return;
        }
        if (promised == 0) {
            System.err.println("hint: no method says that it is atomic: mark one by /* atomic */, or take --public");
        }
        if (!options.infer() && !options.majority() && !methods.namesGuards()) {
            System.err.println("hint: no field says by @GuardedBy which lock guards it: --infer finds such locks");
        }
    }

    /** Takes waits, locks of readers and what has no step out of the skeleton, and finds guards where that is asked. */
    private void refine(Program program, Methods methods) {
        methods.judgeAsNew(new OnlyOfNew(all(program), methods.forNew()).find());
        List<Method> all = all(program);
        Scopes.run(all);
        if (program.sure()) {
            new Doubts(all).run();
        }
        Unwritten unwritten = new Unwritten(all, program.sure());
        if (!program.sure()) {
            unwritten.tell(program.names(), program.notes());
            new OtherNames(all).tell(program.notes());
        }
        unwritten.run();
        new Waiting(all, program.notes(), methods::origin, methods.wait(null)).strictly(options.strict())
            .apart(methods::copy).run();
        new CodeOfOthers(all, program.names(), program.notes(), methods::origin).strictly(options.strict()).run();
        Inference inference = new Inference(all, options.majority(), program.sure())
            .strictly(options.strict(), methods::origin);
        if (options.infer() || options.majority()) {
            inference.guards(program.names(), program.notes());
        }
        inference.requirements();
        new ReadLocks(all).run();
        new Pruning(program.shapes(), methods.roots()).run();
        List<Method> kept = all(program);
        new Races(program.names(), program.notes()).run(kept);
        Marking.run(kept);
        new ClosedWorld(program, methods.onlyOfNew()).run();
        new Limits(program, kept).run();
    }

    private static List<Method> all(Program program) {
        List<Method> all = new ArrayList<>();
        program.shapes().forEach(shape -> all.addAll(shape.methods()));
        return all;
    }

    /** The skeleton of the methods that the user names, and what was noted of each. */
    private int explain(Program program, Methods methods, StringBuilder answer) {
        int found = 0;
        for (var each : methods.judged().entrySet()) {
            JavaMethod java = each.getValue();
            String name = java.symbol().getSimpleName().toString();
            String whole = program.names().shown(java.owner().shape().name()) + "." + name;
            if (options.explain().equals(name) || options.explain().equals(whole)) {
                found++;
                Place end = program.attribution().source(java.tree()).place(program.attribution().end(java.tree()));
                answer.append(java.place()).append(": ").append(whole).append('\n');
                answer.append(new Writer(program.names(), program.helpers()).write(each.getKey()));
                program.notes().lines(java.place(), end).forEach(line -> answer.append(line).append('\n'));
            }
        }
        if (found == 0) {
            throw new Refusal(Options.USAGE, "no method is called " + options.explain());
        }
        return 0;
    }

    private void emit(List<Text> texts, Attribution attribution) {
        if (options.emit() != null) {
            try {
                Path file = Path.of(options.emit());
                if (attribution.isSource(file)) {
                    throw new Refusal(Options.CANNOT_WRITE, "cannot write " + file + ": it is one of the sources");
                }
                StringBuilder all = new StringBuilder();
                texts.forEach(all::append);
                Files.writeString(file, all);
            } catch (IOException | java.nio.file.InvalidPathException fault) {
                throw new Refusal(Options.CANNOT_WRITE, "cannot write " + options.emit());
            }
        }
    }
}
