// The array is made here, so it looks like this call's own. The thread that is started has it too.
class CapturedArray {
    /* atomic */ int sum() { // refused
        int[] parts = new int[2];
        Thread other = new Thread(() -> parts[0] = 1);
        other.start();
        parts[1] = 2;
        int sum = parts[0];
        return sum + parts[0];
    }
}
