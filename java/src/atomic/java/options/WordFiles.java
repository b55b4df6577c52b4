package atomic.java.options;

import java.io.IOException;
import java.io.StreamTokenizer;
import java.io.StringReader;
import java.nio.file.Files;
import java.nio.file.InvalidPathException;
import java.nio.file.Path;
import java.util.ArrayList;
import java.util.List;

/** Words of the command line that stand in a file ({@code @FILE}), as javac has them: more than fit into one line. */
final class WordFiles {
    private static final int LAST_LETTER = 255;

    private WordFiles() { }

    /** The words, with those of each file in its place. Behind {@code --} all words are names. */
    static List<String> expanded(String[] words) {
        List<String> all = new ArrayList<>();
        boolean onlyFiles = false;
        for (String word : words) {
            onlyFiles |= word.equals("--");
            if (word.startsWith("@") && !onlyFiles) {
                all.addAll(read(word.substring(1)));
            } else {
                all.add(word);
            }
        }
        return all;
    }

    /** The words of a file: what stands between blanks and ends of lines, or within quotes. */
    private static List<String> read(String file) {
        List<String> words = new ArrayList<>();
        try {
            StreamTokenizer tokens = new StreamTokenizer(new StringReader(Files.readString(Path.of(file))));
            tokens.resetSyntax();
            tokens.whitespaceChars(0, ' ');
            tokens.wordChars('!', LAST_LETTER);
            tokens.quoteChar('"');
            tokens.quoteChar('\'');
            while (tokens.nextToken() != StreamTokenizer.TT_EOF) {
                words.add(tokens.sval);
            }
            return words;
        } catch (IOException | InvalidPathException fault) {
            throw new Refusal(Options.CANNOT_READ, "cannot read " + file);
        }
    }
}
