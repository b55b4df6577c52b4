class Buf {
    int n guarded_by this;
    atomic int length() {
        synchronized (this) { return this.n; }
    }
    atomic void append(final Buf other) {
        synchronized (this) {
            synchronized (other) {
                this.n = this.n + other.length();
            }
        }
    }
}

class Appender implements Runnable {
    final Buf to;
    final Buf from;
    Appender(Buf to, Buf from) { this.to = to; this.from = from; }
    public void run() {
        this.to.append(this.from);
    }
}

class Main {
    void main() {
        final Buf a = new Buf();
        final Buf b = new Buf();
        new Thread(new Appender(a, b)).start();
        new Thread(new Appender(b, a)).start();
    }
}
