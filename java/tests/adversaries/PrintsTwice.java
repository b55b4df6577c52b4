// Between two lines of output another thread may write one.
class PrintsTwice {
    /* atomic */ void print() { // refused
        System.out.println("one");
        System.out.println("two");
    }

    /* atomic */ void printOnce() { // accepted
        System.out.println("one");
    }
}
