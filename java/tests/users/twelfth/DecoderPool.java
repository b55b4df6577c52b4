// judged with: --public --infer
package com.example.twelfth;

import java.util.ArrayDeque;
import java.util.Deque;
import java.util.Map;
import java.util.TreeMap;
import java.util.concurrent.TimeUnit;
import java.util.function.Function;
import java.util.stream.Collectors;

/** Pool of video decoders, made on demand. */
public class DecoderPool extends ResourcePool<DecoderPool.Decoder> {

  public enum Codec { H264, VP9, AV1 }

  public static final class Decoder {
    private final Codec codec;
    private long frames;

    Decoder(Codec codec) {
      this.codec = codec;
    }

    public synchronized int decode(byte[] frame) { // accepted
      frames++;
      return frame.length * (codec.ordinal() + 1);
    }

    public long frames() { return frames; } // refused: fault: a race: one unlocked read of a plain long that decode() writes under the monitor
  }

  private final Codec codec;

  public DecoderPool(Codec codec, int limit) {
    super(limit);
    this.codec = codec;
  }

  @Override
  protected Decoder create() { return new Decoder(codec); }

  public <R> R with(Function<? super Decoder, ? extends R> job) throws InterruptedException { // refused: fault: borrow, job and giveBack are separate regions by design: T2's stats() sees one idle fewer (or one live more, none idle) while the job runs
    var decoder = borrow();
    try {
      return job.apply(decoder);
    } finally {
      giveBack(decoder);
    }
  }

  /** Makes decoders ahead of need until there are so many. */
  public void warmUp(int wanted) { // refused: fault: the number is taken in one region and used in others: T1 and T2 both warmUp(2) with live=0, both find 2 missing, live becomes 4; and stats() sees the pool half warmed
    int missing = wanted - stats().live();
    for (int i = 0; i < missing; i++) grow();
  }

  public synchronized Map<Codec, Long> framesByCodec() { // refused: fault: synchronized on this, but idle is guarded by mutex: T2's giveBack() pushes while T1 streams, ConcurrentModificationException or a wrong sum; it also adds up the frames of several decoders at different moments
    return idle.stream().collect(
        Collectors.groupingBy(d -> d.codec, TreeMap::new, Collectors.summingLong(Decoder::frames)));
  }
}

/** What all pools have in common. */
abstract class ResourcePool<R> {

  public record Stats(int idle, int live, int limit) { }

  protected final Object mutex = new Object();
  protected final Deque<R> idle = new ArrayDeque<>();
  private final int limit;
  private int live;

  protected ResourcePool(int limit) {
    this.limit = limit;
  }

  protected abstract R create();

  public R borrow() throws InterruptedException { // accepted
    synchronized (mutex) {
      while (idle.isEmpty() && live == limit) mutex.wait();
      return idle.isEmpty() ? made() : idle.pop();
    }
  }

  public R borrow(long timeout, TimeUnit unit) throws InterruptedException { // refused: alarm: the expert sees no interruption
    long end = System.nanoTime() + unit.toNanos(timeout);
    synchronized (mutex) {
      while (idle.isEmpty() && live == limit) {
        long left = end - System.nanoTime();
        if (left <= 0) return null;
        TimeUnit.NANOSECONDS.timedWait(mutex, left);
      }
      return idle.isEmpty() ? made() : idle.pop();
    }
  }

  public void giveBack(R resource) { // accepted
    synchronized (mutex) {
      idle.push(resource);
      mutex.notify();
    }
  }

  public boolean grow() { // accepted
    synchronized (mutex) {
      if (live == limit) return false;
      giveBack(made());
      return true;
    }
  }

  public Stats stats() { // accepted
    synchronized (mutex) { return new Stats(idle.size(), live, limit); }
  }

  private R made() {
    R resource = create();
    live++;
    return resource;
  }
}
