class Gauge {
    int level write_guarded_by this;
    atomic int read() {
        return this.level;
    }
    atomic void raise() {
        synchronized (this) {
            this.level = this.level + 1;
            this.level = this.level + 1;
        }
    }
}

class Main {
    void main() {
        new Gauge().raise();
    }
}
