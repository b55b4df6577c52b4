// judged with: --public --infer
package com.example.twentyfirst;

import java.util.ArrayList;
import java.util.Collections;
import java.util.HashMap;
import java.util.LinkedList;
import java.util.List;
import java.util.Map;
import java.util.Queue;

abstract class AbstractBatcher<T> {

    protected final List<T> open = new ArrayList<>();
    protected final Queue<List<T>> ready = new LinkedList<>();
    private final int batchSize;

    protected AbstractBatcher(int batchSize) {
        this.batchSize = batchSize;
    }

    public synchronized void submit(T item) { // accepted
        accepted(item);
        open.add(item);
        if (open.size() >= batchSize) {
            seal();
        }
    }

    public synchronized List<T> nextBatch() throws InterruptedException { // accepted
        while (ready.isEmpty()) {
            wait();
        }
        return ready.remove();
    }

    public synchronized void flush() { // accepted
        if (!open.isEmpty()) {
            seal();
        }
    }

    public int backlog() { // refused: fault: iterates over the LinkedList without the lock: A is in the loop while B's submit seals a batch, ConcurrentModificationException or a sum that never was
        int n = 0;
        for (List<T> batch : ready) {
            n += batch.size();
        }
        return n;
    }

    protected void seal() {
        ready.add(List.copyOf(open));
        open.clear();
        notifyAll();
    }

    protected abstract void accepted(T item);
}

/**
 * Collects the orders of the shop into batches for the warehouse.
 */
public class OrderBatcher extends AbstractBatcher<OrderBatcher.Order> {

    public record Order(String sku, int quantity) { }

    public interface BatchListener {
        void stockLow(String sku);
    }

    private final Map<String, Integer> demand = new HashMap<>();
    private final List<BatchListener> listeners = Collections.synchronizedList(new ArrayList<>());
    private int alarmLevel = 100;

    public OrderBatcher(int batchSize) {
        super(batchSize);
    }

    public void addListener(BatchListener listener) { // accepted
        listeners.add(listener);
    }

    public boolean removeListener(BatchListener listener) { // accepted
        return listeners.remove(listener);
    }

    public synchronized void setAlarmLevel(int level) { // accepted
        alarmLevel = level;
    }

    public synchronized int demandFor(String sku) { // accepted
        return demand.getOrDefault(sku, 0);
    }

    /** Submits the order unless the same one is already waiting. */
    public boolean submitOnce(Order order) { // refused: fault: locks open, everyone else locks this: A's contains says no, B's submit puts in the same order, A submits it a second time (and contains reads the ArrayList while B writes it)
        synchronized (open) {
            if (open.contains(order)) {
                return false;
            }
            submit(order);
            return true;
        }
    }

    /** Takes back the orders of the open batch that are for the given article. */
    public synchronized int cancel(String sku) { // accepted
        int before = open.size();
        open.removeIf(o -> o.sku().equals(sku));
        return before - open.size();
    }

    public void checkStock() { // refused: fault: two regions with listener calls between: A finds demand 120, B submits 30 more, A sets the demand to 0: B's 30 are lost
        List<String> low = new ArrayList<>();
        synchronized (this) {
            demand.forEach((sku, n) -> {
                if (n >= alarmLevel) {
                    low.add(sku);
                }
            });
        }
        for (String sku : low) {
            listeners.forEach(l -> l.stockLow(sku));
        }
        synchronized (this) {
            low.forEach(sku -> demand.put(sku, 0));
        }
    }

    @Override
    protected void accepted(Order order) {
        demand.merge(order.sku(), order.quantity(), Integer::sum);
    }
}
