class Pair {
    int first guarded_by this;
    int second guarded_by this;
    atomic void append_second() {
        synchronized (this) {
            this.first = this.first + this.second;
        }
    }
    atomic void append_first() {
        synchronized (this) {
            this.second = this.second + this.first;
        }
    }
}

class Appender implements Runnable {
    final Pair pair;
    Appender(Pair pair) { this.pair = pair; }
    public void run() {
        this.pair.append_second();
    }
}

class Other implements Runnable {
    final Pair pair;
    Other(Pair pair) { this.pair = pair; }
    public void run() {
        this.pair.append_first();
    }
}

class Main {
    void main() {
        final Pair pair = new Pair();
        new Thread(new Appender(pair)).start();
        new Thread(new Other(pair)).start();
    }
}
