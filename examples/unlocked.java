class Main {
    int v guarded_by this;
    void main() {
        this.v = 7;
    }
}
