class Main {
    int low;
    int high;
    atomic void main() {
        this.low = 1;
        this.high = 2;
    }
}
