package jvm;

import java.io.ByteArrayOutputStream;
import java.io.OutputStream;
import java.net.URI;
import java.nio.charset.StandardCharsets;
import java.util.ArrayList;
import java.util.HashMap;
import java.util.List;
import java.util.Locale;
import java.util.Map;
import java.util.regex.Pattern;
import javax.tools.Diagnostic;
import javax.tools.DiagnosticListener;
import javax.tools.FileObject;
import javax.tools.ForwardingJavaFileManager;
import javax.tools.JavaCompiler;
import javax.tools.JavaFileManager;
import javax.tools.JavaFileObject;
import javax.tools.SimpleJavaFileObject;
import javax.tools.ToolProvider;

/** javac over texts in memory. */
final class Compiler {
    private static final List<String> OPTIONS = List.of(
            "-proc:none", "-implicit:none", "-nowarn", "-g:none", "-XDshould-stop.ifError=FLOW",
            "-Xmaxerrs", "1000000", "-classpath", System.getProperty("java.class.path"));

    private final JavaCompiler javac = ToolProvider.getSystemJavaCompiler();
    private final JavaFileManager files =
            javac.getStandardFileManager(null, Locale.ENGLISH, StandardCharsets.UTF_8);
    private Loader loader = new Loader();

    ClassLoader loader() {
        return loader;
    }

    /** For each named file its first error, or nothing. */
    List<String> compile(boolean isGenerated, List<String> namesAndTexts) {
        Errors errors = new Errors();
        List<Text> texts = new ArrayList<>();
        for (int k = 0; k < namesAndTexts.size(); k += 2) {
            texts.add(new Text(namesAndTexts.get(k), namesAndTexts.get(k + 1)));
        }
        Loader made = new Loader();
        List<String> options = new ArrayList<>(OPTIONS);
        if (!isGenerated) {
            options.add("-XDshould-stop.ifNoError=FLOW");
        }
        javac.getTask(null, new Written(files, made), errors, options, null, texts).call();
        if (isGenerated) {
            loader = made;
        }
        List<String> found = new ArrayList<>();
        for (Text text : texts) {
            found.add(errors.first.getOrDefault(text.getName(), ""));
        }
        return found;
    }

    /** The first error of each file, but one of unreachable statements only where there is no other. */
    private static final class Errors implements DiagnosticListener<JavaFileObject> {
        private static final Pattern IS_REASON = Pattern.compile("cannot (override|implement) ");
        final Map<String, String> first = new HashMap<>();

        /** The line of a message that says what is wrong: the first one, or the last one where that says why. */
        private static String line(String message) {
            String[] lines = message.strip().split("\\s*\n\\s*");
            return IS_REASON.matcher(lines[0]).find() ? lines[lines.length - 1] : lines[0];
        }

        private static String first(String one, String other) {
            return one.endsWith("unreachable statement") ? other : one;
        }

        @Override
        public void report(Diagnostic<? extends JavaFileObject> told) {
            if (told.getKind() == Diagnostic.Kind.ERROR) {
                String name = told.getSource() == null ? "" : told.getSource().getName();
                String place = told.getLineNumber() + ":" + told.getColumnNumber();
                first.merge(name, place + ": " + line(told.getMessage(Locale.ENGLISH)), Errors::first);
            }
        }
    }

    /** A text that stands for a file. */
    private static final class Text extends SimpleJavaFileObject {
        private final String text;

        Text(String name, String text) {
            super(URI.create("text:///" + name), Kind.SOURCE);
            this.text = text;
        }

        @Override
        public CharSequence getCharContent(boolean ignored) {
            return text;
        }
    }

    /** Hands the bytes of each class to a loader. */
    private static final class Written extends ForwardingJavaFileManager<JavaFileManager> {
        private final Loader loader;

        Written(JavaFileManager files, Loader loader) {
            super(files);
            this.loader = loader;
        }

        @Override
        public JavaFileObject getJavaFileForOutput(Location at, String name, JavaFileObject.Kind kind, FileObject of) {
            return new SimpleJavaFileObject(URI.create("class:///" + name.replace('.', '/')), kind) {
                @Override
                public OutputStream openOutputStream() {
                    return new ByteArrayOutputStream() {
                        @Override
                        public void close() {
                            loader.bytes.put(name, toByteArray());
                        }
                    };
                }
            };
        }
    }

    /** Loads what was compiled. */
    private static final class Loader extends ClassLoader {
        final Map<String, byte[]> bytes = new HashMap<>();

        Loader() {
            super(Server.class.getClassLoader());
        }

        @Override
        protected Class<?> findClass(String name) throws ClassNotFoundException {
            byte[] found = bytes.get(name);
            if (found == null) {
                throw new ClassNotFoundException(name);
            }
            return defineClass(name, found, 0, found.length);
        }
    }
}
