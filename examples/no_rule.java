class Main {
    void main() {
        int a = true;
    }
}
