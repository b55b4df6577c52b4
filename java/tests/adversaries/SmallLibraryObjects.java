// Objects of a library that look as if they never changed.
import java.io.*;
import java.util.*;
import java.util.concurrent.atomic.*;

class SmallLibraryObjects {
    static volatile Object last;
    private final StringTokenizer words = new StringTokenizer("a b");
    private final Date date = new Date();
    private final AtomicInteger number = new AtomicInteger();

    /* atomic */ String nextWord() { // refused
        return words.hasMoreTokens() ? words.nextToken() : "";
    }

    /* atomic */ void twice() { // refused
        date.setTime(1);
        date.setTime(2);
    }

    /* atomic */ static void readFrom() { // refused: the stream has the array
        byte[] bytes = new byte[2];
        last = new ByteArrayInputStream(bytes);
        bytes[0] = 1;
        bytes[1] = 2;
    }

    /* atomic */ int drawn() { // refused: all draw from one row of numbers
        return number.updateAndGet(old -> old + (int) (Math.random() * 9));
    }
}
