class Main {
    int v guarded_by this;
    void main() {
    }
    void set() requires this {
        this.v = 1;
    }
}
