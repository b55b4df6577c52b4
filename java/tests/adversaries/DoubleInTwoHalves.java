// So is a double.
class DoubleInTwoHalves {
    private double value;

    /* atomic */ double get() { // refused
        return value;
    }

    void set(double value) {
        this.value = value;
    }
}
