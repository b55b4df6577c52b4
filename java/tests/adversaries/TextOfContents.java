// A text that is made of a list looks at all of the list, without any lock.
// judged with: --infer
import java.util.ArrayList;
import java.util.Collections;
import java.util.List;

class TextOfContents {
    private final List<String> names = new ArrayList<>();
    private final List<String> added = new ArrayList<>();
    private final List<String> appended = new ArrayList<>();
    private final List<String> kept = new ArrayList<>();
    private final List<String> safe = Collections.synchronizedList(new ArrayList<>());

    synchronized void put(int at, String name) {
        names.set(at, name);
        names.add(name);
        added.set(at, name);
        added.add(name);
        appended.set(at, name);
        appended.add(name);
    }

    /* atomic */ synchronized void keep(int at, String name) { // accepted
        kept.set(at, name);
        kept.add(name);
    }

    void change(int at, String name) {
        safe.set(at, name);
    }

    /* atomic */ String joined() { // refused
        return "names: " + names;
    }

    /* atomic */ String grown() { // refused
        String text = "";
        text += added;
        return text;
    }

    /* atomic */ String built() { // refused
        return new StringBuilder("names: ").append(appended).toString();
    }

    /* atomic */ synchronized String underLock() { // accepted
        StringBuilder text = new StringBuilder();
        text.append(kept).append("a" + kept);
        return text.toString();
    }

    /* atomic */ String once() { // accepted
        return "safe: " + safe;
    }

    /* atomic */ String twice() { // refused
        return safe + " " + safe;
    }
}
