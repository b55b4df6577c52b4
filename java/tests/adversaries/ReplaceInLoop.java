// A loop around a map's replace is one step where the key stays, equal values tell the same, and nothing else is kept.
import java.util.concurrent.ConcurrentHashMap;
import java.util.concurrent.ConcurrentMap;

class ReplaceInLoop {
    record Part(int name, int count) {
        @Override
        public boolean equals(Object other) {
            return other instanceof Part part && part.name == name;
        }

        @Override
        public int hashCode() {
            return name;
        }
    }

    private final ConcurrentMap<String, Long> all = new ConcurrentHashMap<>();
    private final ConcurrentMap<String, Part> parts = new ConcurrentHashMap<>();
    private volatile int turns;
    private volatile Long last = 1000L;

    /* atomic */ boolean take(String key) { // accepted
        for (;;) {
            Long old = all.get(key);
            if (old == null || old < 1) {
                return false;
            }
            if (all.replace(key, old, old - 1)) {
                return true;
            }
        }
    }

    /* atomic */ boolean close(String key) { // accepted
        while (true) {
            Long old = all.get(key);
            if (old == null || old > 0) {
                return false;
            }
            if (all.remove(key, old)) {
                return true;
            }
        }
    }

    /* atomic */ void twice(String key) { // refused
        take(key);
        take(key);
    }

    /* atomic */ boolean anotherKey(String key, String next) { // refused
        for (;;) {
            Long old = all.get(next);
            if (old == null) {
                return false;
            }
            if (all.replace(key, old, old - 1)) {
                return true;
            }
        }
    }

    /* atomic */ boolean movingKey(String first) { // refused
        String key = first;
        for (;;) {
            Long old = all.get(key);
            if (old == null) {
                return false;
            }
            key = key + "x";
            if (all.replace(key, old, old - 1)) {
                return true;
            }
        }
    }

    /* atomic */ boolean equalInPart(String key) { // refused
        for (;;) {
            Part old = parts.get(key);
            if (old == null) {
                return false;
            }
            if (parts.replace(key, old, new Part(old.name, old.count + 1))) {
                return true;
            }
        }
    }

    /* atomic */ boolean whichOne(String key, Long one) { // refused
        for (;;) {
            Long old = all.get(key);
            if (old == one) {
                return false;
            }
            if (all.replace(key, old, one)) {
                return true;
            }
        }
    }

    /* atomic */ boolean counted(String key) { // refused
        for (;;) {
            Long old = all.get(key);
            if (old == null) {
                return false;
            }
            turns = 1;
            if (all.replace(key, old, old - 1)) {
                return true;
            }
        }
    }

    /* atomic */ boolean anotherLook(String key) { // refused
        for (;;) {
            Long old = all.get(key);
            if (old == null) {
                return false;
            }
            if (all.replace(key, old, last)) {
                return true;
            }
        }
    }
}
