class Buf {
    int n guarded_by this;
    atomic int length() {
        synchronized (this) { return this.n; }
    }
    atomic int get(int k) {
        synchronized (this) { return this.n - k; }
    }
    atomic void set(int n) {
        synchronized (this) { this.n = n; }
    }
    atomic void append(final Buf sb) {
        synchronized (this) {
            int k = sb.length();
            this.n = this.n + sb.get(k);
        }
    }
}

class Appender implements Runnable {
    final Buf to;
    final Buf from;
    Appender(Buf to, Buf from) { this.to = to; this.from = from; }
    public void run() {
        this.to.append(this.from);
    }
}

class Cutter implements Runnable {
    final Buf buf;
    Cutter(Buf buf) { this.buf = buf; }
    public void run() {
        this.buf.set(0);
    }
}

class Main {
    void main() {
        final Buf first = new Buf();
        final Buf second = new Buf();
        first.set(3);
        second.set(5);
        new Thread(new Appender(first, second)).start();
        new Thread(new Cutter(second)).start();
    }
}
