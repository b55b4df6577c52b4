// A look that spares a write counts as none only where the write puts in what the look compares with, and nothing else hangs on it.
class IdleWrites {
    private volatile boolean open;
    private volatile int last;
    private volatile int next;
    private volatile double ratio;
    private volatile Integer box;
    private volatile String name;

    /* atomic */ void begin() { // accepted
        if (!open) open = true;
    }

    /* atomic */ void end() { // accepted
        if (open) {
            open = false;
        }
    }

    /* atomic */ void note(int n) { // accepted
        if (this.last != n) this.last = n;
    }

    /* atomic */ void rename(String other) { // accepted
        if (name != other) name = other;
    }

    /* atomic */ void forget() { // accepted
        if (name != null) name = null;
    }

    /* atomic */ void noteAndMore(int n) { // refused
        if (last != n) last = n;
        next = n;
    }

    /* atomic */ boolean endFirst() { // refused
        if (open) {
            open = false;
            return true;
        }
        return false;
    }

    /* atomic */ boolean beginOrTell() { // refused
        boolean was = open;
        if (!was) open = true;
        return was;
    }

    /* atomic */ void flip() { // refused
        if (open) open = false; else open = true;
    }

    /* atomic */ void another(int n) { // refused
        if (last != n) last = n + 1;
    }

    /* atomic */ void theOther(int n) { // refused
        if (last != n) next = n;
    }

    /* atomic */ void ofAnother(IdleWrites other, int n) { // refused
        if (other.last != n) last = n;
    }

    /* atomic */ void same(int n) { // refused
        if (last == n) last = n;
    }

    /* atomic */ void greater(int n) { // refused
        if (last < n) last = n;
    }

    /* atomic */ void count(int n) { // refused
        if (last != n) last += n;
    }

    /* atomic */ void changed(int n) { // refused
        if (last != n++) last = n;
    }

    /* atomic */ void byAnother() { // refused
        if (last != next) last = next;
    }

    /* atomic */ void wrongWay() { // refused
        if (open) open = true;
    }

    /* atomic */ void both(int n) { // refused
        if (last != n && open) last = n;
    }

    /* atomic */ void withPoint(double n) { // refused
        if (ratio != n) ratio = n;
    }

    /* atomic */ void boxed(int n) { // refused
        if (box != n) box = n;
    }

    /* atomic */ void turns(int n) { // refused
        for (int k = 0; k < n; k++) {
            if (last != k) last = k;
        }
    }
}
