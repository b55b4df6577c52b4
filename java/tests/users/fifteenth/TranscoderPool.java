// judged with: --public --infer
package com.example.fifteenth;

import java.util.ArrayList;
import java.util.Collection;
import java.util.LinkedHashMap;
import java.util.List;
import java.util.Map;
import java.util.Optional;
import java.util.concurrent.ConcurrentHashMap;
import java.util.concurrent.atomic.AtomicInteger;
import java.util.function.Function;

/**
 * Pool of video transcoders, grouped by codec.
 */
public class TranscoderPool {

    public enum Codec { H264, HEVC, AV1 }

    private enum State { IDLE, RUNNING, RETIRED }

    public static final class Transcoder {
        private final int id;
        private final Codec codec;
        private State state = State.IDLE;
        private int jobs;

        private Transcoder(int id, Codec codec) {
            this.id = id;
            this.codec = codec;
        }

        public int id() { // accepted
            return id;
        }

        public Codec codec() { // accepted
            return codec;
        }
    }

    private final Map<Integer, Transcoder> all = new LinkedHashMap<>();
    private final ConcurrentHashMap<Codec, Integer> limits = new ConcurrentHashMap<>();
    private final AtomicInteger ids = new AtomicInteger();

    public TranscoderPool limit(Codec codec, int max) { // accepted
        limits.put(codec, max);
        return this;
    }

    /** Raises the limit of a codec by one, up to the given ceiling. */
    public boolean raiseLimit(Codec codec, int ceiling) { // refused: fault: compound use of the map: two threads read 3 and both put 4, or a limit() in between is overwritten
        int now = limits.getOrDefault(codec, 0);
        if (now >= ceiling) {
            return false;
        }
        limits.put(codec, now + 1);
        return true;
    }

    public int lowerLimit(Codec codec) { // accepted
        return limits.merge(codec, 0, (old, zero) -> Math.max(0, old - 1));
    }

    public Optional<Transcoder> checkOut(Codec codec) { // refused: alarm: one region on all; limits is looked at once in it
        synchronized (all) {
            Optional<Transcoder> idle = all.values().stream()
                    .filter(t -> t.codec == codec && t.state == State.IDLE)
                    .min((a, b) -> Integer.compare(a.jobs, b.jobs));
            if (idle.isEmpty() && countOf(codec) < limits.getOrDefault(codec, 0)) {
                Transcoder fresh = new Transcoder(ids.incrementAndGet(), codec);
                all.put(fresh.id, fresh);
                idle = Optional.of(fresh);
            }
            idle.ifPresent(t -> {
                t.state = State.RUNNING;
                t.jobs++;
            });
            return idle;
        }
    }

    public void checkIn(Transcoder t) { // refused: fault: state is tested outside the region: two threads both see RUNNING, one sets IDLE, a third checks it out, then the second sets IDLE while it is in use
        if (t.state != State.RUNNING) {
            throw new IllegalStateException("not checked out: " + t.id);
        }
        synchronized (all) {
            t.state = State.IDLE;
        }
    }

    public boolean retire(int id) { // refused: alarm: one region on all
        synchronized (all) {
            Transcoder t = all.get(id);
            if (t == null || t.state == State.RUNNING) {
                return false;
            }
            t.state = State.RETIRED;
            return all.remove(id, t);
        }
    }

    public <R> Optional<R> with(Codec codec, Function<? super Transcoder, ? extends R> job) { // refused: fault: by design, but strictly so: check-out, alien job and check-in are separate regions and others see the transcoder running in between
        Optional<Transcoder> t = checkOut(codec);
        try {
            return t.map(job);
        } finally {
            t.ifPresent(this::checkIn);
        }
    }

    public List<Integer> idleIds() { // refused: alarm: one region on all, private result list
        List<Integer> ids = new ArrayList<>();
        synchronized (all) {
            for (Transcoder t : all.values()) {
                if (t.state == State.IDLE) {
                    ids.add(t.id);
                }
            }
        }
        return ids;
    }

    public synchronized Collection<Transcoder> snapshot() { // refused: fault: wrong lock (this instead of all): the copy races with checkOut's put, ConcurrentModificationException or a torn copy
        return new ArrayList<>(all.values());
    }

    private long countOf(Codec codec) {
        return all.values().stream().filter(t -> t.codec == codec).count();
    }
}
