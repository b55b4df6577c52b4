// judged with: --public --infer
package com.example.twelfth;

import java.util.ArrayList;
import java.util.Collections;
import java.util.List;
import java.util.Map;
import java.util.NoSuchElementException;
import java.util.Optional;
import java.util.UUID;
import java.util.concurrent.ConcurrentHashMap;
import java.util.concurrent.locks.ReentrantLock;

/** Keeps money of buyers and sellers, and money held back until delivery. */
public class EscrowBank {

  public record Hold(UUID id, String buyer, String seller, long cents) { }

  private static final class Account {
    final ReentrantLock lock = new ReentrantLock();
    long cents;
    boolean closed;

    long read() {
      lock.lock();
      try {
        return cents;
      } finally {
        lock.unlock();
      }
    }
  }

  private final Map<String, Account> accounts = new ConcurrentHashMap<>();
  private final Map<UUID, Hold> holds = new ConcurrentHashMap<>();
  private final List<Hold> delivered = Collections.synchronizedList(new ArrayList<>());

  public boolean open(String owner) { // accepted
    return accounts.putIfAbsent(owner, new Account()) == null;
  }

  /** Closes the account and returns what was on it. */
  public long close(String owner) { // refused: alarm: the expert sees no interruption
    var account = find(owner);
    account.lock.lock();
    try {
      if (account.closed) throw new NoSuchElementException(owner);
      account.closed = true;
      accounts.remove(owner, account);
      return account.cents;
    } finally {
      account.lock.unlock();
    }
  }

  public long deposit(String owner, long cents) { // refused: alarm: the expert sees no interruption
    var account = find(owner);
    account.lock.lock();
    try {
      if (account.closed) throw new NoSuchElementException(owner);
      return account.cents += cents;
    } finally {
      account.lock.unlock();
    }
  }

  public boolean withdraw(String owner, long cents) { // refused: fault: no check of closed under the lock: T1 finds the account with 100, T2's close() pays out 100, T1 then takes 100 more and returns true
    var account = find(owner);
    account.lock.lock();
    try {
      if (account.cents < cents) return false;
      account.cents -= cents;
      return true;
    } finally {
      account.lock.unlock();
    }
  }

  public Optional<Long> balance(String owner) { // refused: alarm: the expert sees no interruption
    return Optional.ofNullable(accounts.get(owner)).map(Account::read);
  }

  /** Moves money from the buyer into escrow. */
  public Optional<Hold> hold(String buyer, String seller, long cents) { // refused: alarm: the expert sees no interruption
    var hold = new Hold(UUID.randomUUID(), buyer, seller, cents);
    var account = find(buyer);
    account.lock.lock();
    try {
      if (account.closed) throw new NoSuchElementException(buyer);
      if (account.cents < cents) return Optional.empty();
      account.cents -= cents;
      holds.put(hold.id(), hold);
      return Optional.of(hold);
    } finally {
      account.lock.unlock();
    }
  }

  public boolean deliver(UUID id) { // refused: fault: three steps: T1 removes the hold, T2 sees held(id) empty and the seller's balance without the money, T1 credits; if the seller's account is closed between, the money is lost
    var hold = holds.remove(id);
    if (hold == null) return false;
    deposit(hold.seller(), hold.cents());
    delivered.add(hold);
    return true;
  }

  public Optional<Hold> held(UUID id) { // accepted
    return Optional.ofNullable(holds.get(id));
  }

  public long deliveredTo(String seller) { // refused: fault: streams over a synchronizedList without holding its lock: T2's deliver() adds meanwhile, T1 gets ConcurrentModificationException
    return delivered.stream().filter(h -> h.seller().equals(seller)).mapToLong(Hold::cents).sum();
  }

  public long assets() { // refused: fault: one region per account in a weakly consistent walk: T1 reads a=100, T2 withdraws 100 from a and deposits it to b, T1 reads b=100: 200
    return accounts.values().stream().mapToLong(Account::read).sum();
  }

  private Account find(String owner) {
    return Optional.ofNullable(accounts.get(owner)).orElseThrow(() -> new NoSuchElementException(owner));
  }
}
