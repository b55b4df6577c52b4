class Main {
    int a;
    atomic void f(boolean c) {
        if (c) { this.a = 1; } else { this.g(c); this.g(c); }
    }
    void g(boolean c) { this.f(c); }
    void main() { }
}
