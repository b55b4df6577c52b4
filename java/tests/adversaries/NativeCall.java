// Nobody knows what native code does.
class NativeCall {
    private native void copy();

    /* atomic */ synchronized void run() { // refused
        copy();
    }
}
