// join() waits, and what stands before it is seen by the thread that is waited for.
class JoinsThreads {
    volatile int wanted;

    /* atomic */ void ask(Thread other) throws InterruptedException { // refused
        wanted = 1;
        other.join();
    }
}
