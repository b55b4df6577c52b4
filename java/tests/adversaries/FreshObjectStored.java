// The object is new, and known to others as soon as it is stored.
class FreshObjectStored {
    volatile int left;
    volatile int right;
    static volatile FreshObjectStored last;

    /* atomic */ static void make() { // refused
        FreshObjectStored made = new FreshObjectStored();
        last = made;
        made.left = 1;
        made.right = 2;
    }
}
