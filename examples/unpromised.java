class Counter {
    int n;
    void increment() {
        this.n = this.n + 1;
    }
}

class Main {
    void main() {
    }
}
