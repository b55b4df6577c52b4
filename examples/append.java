class Buf {
    int n guarded_by this;
    atomic int length() {
        synchronized (this) { return this.n; }
    }
    atomic int get(int k) {
        synchronized (this) { return this.n - k; }
    }
    atomic void append(final Buf sb) {
        synchronized (this) {
            int k = sb.length();
            this.n = this.n + sb.get(k);
        }
    }
}

class Main {
    void main() { }
}
