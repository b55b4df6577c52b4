package atomic.java.library;

import atomic.java.options.Options;
import atomic.java.options.Refusal;
import java.io.BufferedReader;
import java.io.IOException;
import java.io.InputStream;
import java.io.InputStreamReader;
import java.io.Reader;
import java.nio.charset.StandardCharsets;
import java.nio.file.Files;
import java.nio.file.Path;
import java.util.ArrayList;
import java.util.HashMap;
import java.util.List;
import java.util.Map;
import javax.lang.model.element.ExecutableElement;
import javax.lang.model.element.TypeElement;
import javax.lang.model.type.DeclaredType;
import javax.lang.model.type.TypeMirror;
import javax.lang.model.util.Elements;
import javax.lang.model.util.Types;

/** The table of library classes: what a call of each method counts as ({@code library.txt} says how it is written). */
public final class Library {

    /** Packages whose classes only keep what they are made of; making an object of another package may do anything. */
    private static final List<String> PLAIN = List.of("java.lang.", "java.util.", "java.math.", "java.text.", "java.time.");

    /** The choices for one class: by the names of its methods, {@code *} for all others, {@code new} to make one. */
    private final Map<String, Map<String, Choice>> rows = new HashMap<>();
    private final Map<String, List<String>> above = new HashMap<>();
    private final Types types;
    private final Elements elements;

    /** Reads the files that the user named, and then the table of this program: the first row that speaks counts. */
    public Library(List<String> files, Types types, Elements elements) {
        this.types = types;
        this.elements = elements;
        for (String file : files) {
            try (Reader reader = Files.newBufferedReader(Path.of(file))) {
                read(file, reader);
            } catch (IOException | java.nio.file.InvalidPathException fault) {
                throw new Refusal(Options.CANNOT_READ, "cannot read " + file);
            }
        }
        try (InputStream stream = Library.class.getResourceAsStream("library.txt")) {
            read("library.txt", new InputStreamReader(stream, StandardCharsets.UTF_8));
        } catch (IOException fault) {
            throw new Refusal(Options.CANNOT_READ, "cannot read library.txt");
        }
    }

    private void read(String file, Reader reader) throws IOException {
        BufferedReader lines = new BufferedReader(reader);
        int number = 0;
        for (String line = lines.readLine(); line != null; line = lines.readLine()) {
            number++;
            if (!line.isBlank() && !line.startsWith("#")) {
                String[] words = line.strip().split("\\s+", 4);
                try {
                    row(words);
                } catch (IllegalArgumentException | ArrayIndexOutOfBoundsException fault) {
                    throw new Refusal(Options.USAGE, file + ":" + number + ": error: not TYPE MEMBERS CHOICE WHY");
                }
            }
        }
    }

    private void row(String[] words) {
        if (words[3].isBlank()) {
            throw new IllegalArgumentException("no reason");
        }
        Map<String, Choice> members = rows.computeIfAbsent(words[0], key -> new HashMap<>());
        for (String member : words[1].split(",")) {
            members.putIfAbsent(member, Choice.of(words[2]));
        }
    }

    /** A method as {@link #choose} knows it: its name, and the number of its parameters, which a row may ask for. */
    public static String key(ExecutableElement method) {
        return method.getSimpleName() + "/" + method.getParameters().size();
    }

    /** What a call of a method of a type counts as: by the type's own rows, else by those of the types above it. */
    public Choice choose(TypeMirror type, String method) {
        return choose(names(type), method);
    }

    /** The same for a class that the table names itself. */
    public Choice choose(String type, String method) {
        TypeElement known = elements.getTypeElement(type);
        return known == null ? choose(List.of(type), method) : choose(names(known.asType()), method);
    }

    private Choice choose(List<String> names, String method) {
        String plain = method.split("/")[0];
        for (String name : names) {
            Map<String, Choice> members = rows.get(name);
            if (members != null) {
                Choice others = plain.equals("new") ? null : members.get("*");
                Choice choice = members.getOrDefault(method, members.getOrDefault(plain, others));
                boolean made = plain.equals("new") && name.equals("java.lang.Object") && !names.get(0).equals(name);
                if (choice != null && !made) {
                    return choice;
                }
            }
        }
        return plain.equals("new") && PLAIN.stream().anyMatch(names.get(0)::startsWith) ? Choice.MADE : Choice.UNKNOWN;
    }

    /** Whether objects of the type hold contents that aren't safe by themselves. */
    public boolean hasContents(TypeMirror type) {
        return type.getKind() == javax.lang.model.type.TypeKind.ARRAY || hasContents(names(type));
    }

    /** The same for a class that the table names itself. */
    public boolean hasContents(String type) {
        TypeElement known = elements.getTypeElement(type);
        return hasContents(known == null ? List.of(type) : names(known.asType()));
    }

    private boolean hasContents(List<String> names) {
        for (String name : names) {
            Map<String, Choice> members = rows.get(name);
            if (members != null && has(members, Choice.Kind.READS, Choice.Kind.WRITES)) {
                return true;
            } else if (members != null && has(members, Choice.Kind.STEP, Choice.Kind.COMPOUND)) {
                return false;
            }
        }
        return false;
    }

    private static boolean has(Map<String, Choice> members, Choice.Kind one, Choice.Kind other) {
        return members.values().stream().anyMatch(choice -> choice.kind() == one || choice.kind() == other);
    }

    /** The names of a type and of those above it, each before those above it: a row of its own speaks before theirs. */
    private List<String> names(TypeMirror type) {
        TypeMirror erased = types.erasure(type);
        if (!(erased instanceof DeclaredType declared)) {
            return List.of(erased.toString(), "java.lang.Object");
        }
        String own = ((TypeElement) declared.asElement()).getQualifiedName().toString();
        if (!above.containsKey(own)) {
            List<TypeMirror> all = new ArrayList<>(List.of(erased));
            for (int k = 0; k < all.size(); k++) {
                types.directSupertypes(all.get(k)).stream().map(types::erasure)
                    .filter(each -> all.stream().noneMatch(other -> types.isSameType(each, other))).forEach(all::add);
            }
            List<String> ordered = new ArrayList<>();
            inOrder(all).forEach(each -> ordered.add(((TypeElement) each.asElement()).getQualifiedName().toString()));
            ordered.remove("java.lang.Object");
            ordered.add("java.lang.Object");
            above.put(own, ordered);
        }
        return above.get(own);
    }

    /** Each type before those above it: a tree map is a sorted map before it is a map, however far away either is. */
    private List<DeclaredType> inOrder(List<TypeMirror> all) {
        List<DeclaredType> ordered = new ArrayList<>();
        for (TypeMirror each : all) {
            if (each instanceof DeclaredType one) {
                int at = 0;
                while (at < ordered.size() && !types.isSubtype(one, ordered.get(at))) {
                    at++;
                }
                ordered.add(at, one);
            }
        }
        return ordered;
    }
}
