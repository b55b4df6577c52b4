// An `if` in front of wait() isn't a loop: what is read before is used after the lock was given away.
class WaitOnce {
    @GuardedBy("this") int filled;

    /* atomic */ synchronized int take() throws InterruptedException { // refused
        int before = filled;
        if (before == 0) wait();
        filled = before - 1;
        return before;
    }
}

@interface GuardedBy {
    String value();
}
