class Cell {
    int v guarded_by this;
    atomic void inc() {
        synchronized (this) {
            this.v = this.v + 1;
        }
    }
    atomic void twice() {
        this.inc();
        this.inc();
    }
}

class W implements Runnable {
    final Cell c;
    W(Cell c) { this.c = c; }
    public void run() {
        this.c.twice();
    }
}

class Main {
    void main() {
        final Cell c = new Cell();
        new Thread(new W(c)).start();
        new Thread(new W(c)).start();
    }
}
