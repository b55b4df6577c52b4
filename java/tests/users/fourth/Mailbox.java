// judged with: --public --infer
package com.example.fourth;

import java.lang.annotation.ElementType;
import java.lang.annotation.Target;
import java.util.ArrayList;
import java.util.List;

/**
 * A bounded mailbox over a ring of slots, for any number of senders and receivers.
 */
public class Mailbox {

    @Target({ElementType.FIELD, ElementType.METHOD})
    @interface GuardedBy { String value(); }

    @GuardedBy("this") private final Object[] slots;
    @GuardedBy("this") private int head;
    @GuardedBy("this") private int count;
    @GuardedBy("this") private boolean closed;

    public Mailbox(int capacity) {
        slots = new Object[capacity];
    }

    public synchronized void put(Object mail) throws InterruptedException { // accepted
        while (count == slots.length && !closed) {
            wait();
        }
        if (closed) throw new IllegalStateException("mailbox is closed");
        enqueue(mail);
        notifyAll();
    }

    /** Puts all of them, in order. */
    public synchronized void putAll(List<?> mails) throws InterruptedException { // refused: fault: each nested put may wait in the middle (`wait` gives up the monitor even when held twice) after earlier mails
        for (Object mail : mails) {
            put(mail);
        }
    }

    public synchronized boolean offer(Object mail) { // accepted
        if (closed || count == slots.length) return false;
        enqueue(mail);
        notifyAll();
        return true;
    }

    /** All or nothing. */
    public boolean offerAll(Object... mails) { // refused: fault: check-then-act over several critical sections
        if (remainingCapacity() < mails.length) return false;
        for (Object mail : mails) offer(mail);
        return true;
    }

    /** @return the next mail, or null if the mailbox is closed and empty */
    public synchronized Object take() throws InterruptedException { // accepted
        while (count == 0) {
            if (closed) return null;
            wait();
        }
        Object mail = dequeue();
        notifyAll();
        return mail;
    }

    public synchronized Object poll(long millis) throws InterruptedException { // accepted
        final long deadline = System.nanoTime() + millis * 1000000L;
        while (count == 0 && !closed) {
            long left = (deadline - System.nanoTime()) / 1000000L;
            if (left <= 0) return null;
            wait(left);
        }
        if (count == 0) return null;
        Object mail = dequeue();
        notifyAll();
        return mail;
    }

    public synchronized Object peek() { // accepted
        return count == 0 ? null : slots[head];
    }

    public List<Object> drain() { // accepted
        List<Object> result = new ArrayList<Object>();
        synchronized (this) {
            while (count > 0) result.add(dequeue());
            notifyAll();
        }
        return result;
    }

    public synchronized int size() { // accepted
        return count;
    }

    public boolean isClosed() { // refused: fault: data race on `closed` (plain field, written by close() under the monitor, read here without)
        return closed;
    }

    public synchronized int remainingCapacity() { // accepted
        return slots.length - count;
    }

    public synchronized void close() { // accepted
        closed = true;
        notifyAll();
    }

    @GuardedBy("this") private void enqueue(Object mail) {
        slots[(head + count) % slots.length] = mail;
        count++;
    }

    @GuardedBy("this") private Object dequeue() {
        Object mail = slots[head];
        slots[head] = null;
        head = (head + 1) % slots.length;
        count--;
        return mail;
    }
}
