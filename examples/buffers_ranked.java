class Buf {
    int n guarded_by this;
    atomic int length() {
        synchronized (this) { return this.n; }
    }
}

class Log {
    int n guarded_by this;
    atomic void append(final Buf other) {
        synchronized (this) {
            synchronized (other) {
                this.n = this.n + other.length();
            }
        }
    }
}

class Appender implements Runnable {
    final Log to;
    final Buf from;
    Appender(Log to, Buf from) { this.to = to; this.from = from; }
    public void run() {
        this.to.append(this.from);
    }
}

class Main {
    void main() {
        final Log log = new Log();
        new Thread(new Appender(log, new Buf())).start();
        new Thread(new Appender(log, new Buf())).start();
    }
}
