class Main {
    int low guarded_by this;
    int high guarded_by this;
    atomic void main() {
        synchronized (this) {
            this.low = 1;
            this.high = 2;
        }
    }
}
