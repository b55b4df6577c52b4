// judged with: --public --infer
package com.example.seventeenth;

import java.util.EnumMap;
import java.util.Map;
import java.util.Optional;
import java.util.UUID;
import java.util.concurrent.atomic.AtomicLong;
import java.util.concurrent.atomic.AtomicReference;
import java.util.concurrent.atomic.LongAccumulator;

/**
 * What went through the stages of the import pipeline.
 */
public final class PipelineStats {

    public enum Stage { PARSE, ENRICH, STORE }

    public record Totals(long items, long bytes) {
        static final Totals NONE = new Totals(0, 0);

        Totals plus(Totals other) {
            return new Totals(items + other.items, bytes + other.bytes);
        }
    }

    private static final class Holder {
        static final PipelineStats INSTANCE = new PipelineStats();
    }

    private final Map<Stage, AtomicReference<Totals>> totals = new EnumMap<>(Stage.class);
    private final LongAccumulator slowest = new LongAccumulator(Math::max, 0);
    private final AtomicLong errors = new AtomicLong();
    private volatile Stage lastFailed;
    private volatile UUID runId;
    private volatile String banner;

    private PipelineStats() {
        for (Stage stage : Stage.values()) {
            totals.put(stage, new AtomicReference<>(Totals.NONE));
        }
    }

    public static PipelineStats get() { // accepted
        return Holder.INSTANCE;
    }

    public Totals processed(Stage stage, long items, long bytes) { // accepted
        return totals.get(stage).accumulateAndGet(new Totals(items, bytes), Totals::plus);
    }

    public Totals totals(Stage stage) { // accepted
        return totals.get(stage).get();
    }

    public Totals drain(Stage stage) { // accepted
        return totals.get(stage).getAndSet(Totals.NONE);
    }

    public Totals grandTotal() { // refused: fault: a reads PARSE=0, B processes 5 items in PARSE and then 7 in STORE, A reads STORE=7 and returns 7, which the total never was
        return totals.values().stream()
                .map(AtomicReference::get)
                .reduce(Totals.NONE, Totals::plus);
    }

    public boolean raiseTo(Stage stage, Totals floor) { // accepted
        AtomicReference<Totals> ref = totals.get(stage);
        for (;;) {
            Totals seen = ref.get();
            if (seen.items() >= floor.items()) {
                return false;
            }
            if (ref.compareAndSet(seen, floor)) {
                return true;
            }
        }
    }

    public long failed(Stage stage) { // refused: fault: two variables: B sees lastFailed=STORE while errors is still 0; or A sets PARSE, B sets STORE and gets error 1, A gets error 2, and the last failed is the stage of error 1
        lastFailed = stage;
        return errors.incrementAndGet();
    }

    public long errors() { // accepted
        return errors.get();
    }

    public Optional<Stage> lastFailed() { // accepted
        return Optional.ofNullable(lastFailed);
    }

    public void took(long nanos) { // refused: alarm: one accumulate (a compare-and-set on one cell)
        slowest.accumulate(nanos);
    }

    public long slowest() { // refused: doubtful: longAccumulator.get is not a snapshot: A has passed cell 0, B accumulates 20 into cell 0 and then 10 into cell 1, A returns 10, which never was the maximum; few would mind
        return slowest.get();
    }

    /** Identifies this run in the reports. */
    public UUID runId() { // refused: fault: a and B both see null, A stores and returns X, B stores Y: two ids for one run
        if (runId == null) {
            runId = UUID.randomUUID();
        }
        return runId;
    }

    public String banner() { // refused: alarm: idempotent lazy value through a volatile and a local: two threads may both build it, but equal strings
        String text = banner;
        if (text == null) {
            text = "pipeline on " + System.getProperty("os.name") + ", " + Stage.values().length + " stages";
            banner = text;
        }
        return text;
    }
}
