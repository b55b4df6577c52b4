// An object that is taken out of a map only where its flag is set in one region of its lock: who asks the flag under that lock has
// an object that is still in the map. Where any part of this is missing, it may not be there any more.
// judged with: --public --infer
import java.util.concurrent.ConcurrentHashMap;
import java.util.concurrent.ConcurrentMap;

public class Retirals {
    private static final class Account {
        final Object lock = new Object();
        long balance;
        boolean closed;
    }

    private final ConcurrentMap<String, Account> accounts = new ConcurrentHashMap<>();

    public boolean open(String id) { // accepted
        return accounts.putIfAbsent(id, new Account()) == null;
    }

    public boolean add(String id, long amount) { // accepted
        Account account = accounts.get(id);
        if (account == null) {
            return false;
        }
        synchronized (account) {
            if (account.closed) {
                return false;
            }
            account.balance += amount;
            return true;
        }
    }

    public boolean close(String id) { // accepted
        Account account = accounts.get(id);
        if (account == null) {
            return false;
        }
        synchronized (account) {
            if (account.closed || account.balance != 0) {
                return false;
            }
            account.closed = true;
            accounts.remove(id, account);
            return true;
        }
    }
}

class RemovedBehind {
    private static final class Account {
        final Object lock = new Object();
        long balance;
        boolean closed;
    }

    private final ConcurrentMap<String, Account> accounts = new ConcurrentHashMap<>();

    public boolean open(String id) { // accepted
        return accounts.putIfAbsent(id, new Account()) == null;
    }

    public boolean add(String id, long amount) { // refused
        Account account = accounts.get(id);
        if (account == null) {
            return false;
        }
        synchronized (account) {
            if (account.closed) {
                return false;
            }
            account.balance += amount;
            return true;
        }
    }

    public boolean close(String id) { // refused
        Account account = accounts.get(id);
        if (account == null) {
            return false;
        }
        synchronized (account) {
            if (account.closed) {
                return false;
            }
            account.closed = true;
        }
        accounts.remove(id, account);
        return true;
    }
}

class NotAsked {
    private static final class Account {
        final Object lock = new Object();
        long balance;
        boolean closed;
    }

    private final ConcurrentMap<String, Account> accounts = new ConcurrentHashMap<>();

    public boolean open(String id) { // accepted
        return accounts.putIfAbsent(id, new Account()) == null;
    }

    public boolean add(String id, long amount) { // refused
        Account account = accounts.get(id);
        if (account == null) {
            return false;
        }
        synchronized (account) {
            account.balance++;
            account.balance += amount;
            return true;
        }
    }

    public boolean close(String id) { // accepted
        Account account = accounts.get(id);
        if (account == null) {
            return false;
        }
        synchronized (account) {
            if (account.closed || account.balance != 0) {
                return false;
            }
            account.closed = true;
            accounts.remove(id, account);
            return true;
        }
    }
}

class AskedTooLate {
    private static final class Account {
        final Object lock = new Object();
        long balance;
        boolean closed;
    }

    private final ConcurrentMap<String, Account> accounts = new ConcurrentHashMap<>();

    public boolean open(String id) { // accepted
        return accounts.putIfAbsent(id, new Account()) == null;
    }

    public boolean add(String id, long amount) { // refused
        Account account = accounts.get(id);
        if (account == null) {
            return false;
        }
        synchronized (account) {
            account.balance++;
            if (account.closed) {
                return false;
            }
            account.balance += amount;
            return true;
        }
    }

    public boolean close(String id) { // accepted
        Account account = accounts.get(id);
        if (account == null) {
            return false;
        }
        synchronized (account) {
            if (account.closed || account.balance != 0) {
                return false;
            }
            account.closed = true;
            accounts.remove(id, account);
            return true;
        }
    }
}

class OtherAnswer {
    private static final class Account {
        final Object lock = new Object();
        long balance;
        boolean closed;
    }

    private final ConcurrentMap<String, Account> accounts = new ConcurrentHashMap<>();

    public boolean open(String id) { // accepted
        return accounts.putIfAbsent(id, new Account()) == null;
    }

    public boolean add(String id, long amount) { // refused
        Account account = accounts.get(id);
        if (account == null) {
            return false;
        }
        synchronized (account) {
            if (account.closed) {
                throw new IllegalStateException();
            }
            account.balance += amount;
            return true;
        }
    }

    public boolean close(String id) { // accepted
        Account account = accounts.get(id);
        if (account == null) {
            return false;
        }
        synchronized (account) {
            if (account.closed || account.balance != 0) {
                return false;
            }
            account.closed = true;
            accounts.remove(id, account);
            return true;
        }
    }
}

class GoesBack {
    private static final class Account {
        final Object lock = new Object();
        long balance;
        boolean closed;
    }

    private final ConcurrentMap<String, Account> accounts = new ConcurrentHashMap<>();

    public boolean open(String id) { // accepted
        return accounts.putIfAbsent(id, new Account()) == null;
    }

    public boolean add(String id, long amount) { // refused
        Account account = accounts.get(id);
        if (account == null) {
            return false;
        }
        synchronized (account) {
            if (account.closed) {
                return false;
            }
            account.balance += amount;
            return true;
        }
    }

    public boolean close(String id) { // refused
        Account account = accounts.get(id);
        if (account == null) {
            return false;
        }
        synchronized (account) {
            if (account.closed || account.balance != 0) {
                return false;
            }
            account.closed = true;
            accounts.remove(id, account);
            return true;
        }
    }

    public boolean reopen(String id) { // refused
        Account account = accounts.get(id);
        if (account == null) {
            return false;
        }
        synchronized (account) {
            account.closed = false;
            return true;
        }
    }
}

class Replaced {
    private static final class Account {
        final Object lock = new Object();
        long balance;
        boolean closed;
    }

    private final ConcurrentMap<String, Account> accounts = new ConcurrentHashMap<>();

    public boolean open(String id) { // accepted
        return accounts.putIfAbsent(id, new Account()) == null;
    }

    public boolean add(String id, long amount) { // refused
        Account account = accounts.get(id);
        if (account == null) {
            return false;
        }
        synchronized (account) {
            if (account.closed) {
                return false;
            }
            account.balance += amount;
            return true;
        }
    }

    public boolean close(String id) { // refused
        Account account = accounts.get(id);
        if (account == null) {
            return false;
        }
        synchronized (account) {
            if (account.closed || account.balance != 0) {
                return false;
            }
            account.closed = true;
            accounts.remove(id, account);
            return true;
        }
    }

    public void replace(String id) { // accepted
        accounts.put(id, new Account());
    }
}

class Cleared {
    private static final class Account {
        final Object lock = new Object();
        long balance;
        boolean closed;
    }

    private final ConcurrentMap<String, Account> accounts = new ConcurrentHashMap<>();

    public boolean open(String id) { // accepted
        return accounts.putIfAbsent(id, new Account()) == null;
    }

    public boolean add(String id, long amount) { // refused
        Account account = accounts.get(id);
        if (account == null) {
            return false;
        }
        synchronized (account) {
            if (account.closed) {
                return false;
            }
            account.balance += amount;
            return true;
        }
    }

    public boolean close(String id) { // refused
        Account account = accounts.get(id);
        if (account == null) {
            return false;
        }
        synchronized (account) {
            if (account.closed || account.balance != 0) {
                return false;
            }
            account.closed = true;
            accounts.remove(id, account);
            return true;
        }
    }

    public void clear() { // refused
        accounts.clear();
    }
}

class AnotherLock {
    private static final class Account {
        final Object lock = new Object();
        long balance;
        boolean closed;
    }

    private final ConcurrentMap<String, Account> accounts = new ConcurrentHashMap<>();

    public boolean open(String id) { // accepted
        return accounts.putIfAbsent(id, new Account()) == null;
    }

    public boolean add(String id, long amount) { // refused
        Account account = accounts.get(id);
        if (account == null) {
            return false;
        }
        synchronized (account) {
            if (account.closed) {
                return false;
            }
            account.balance += amount;
            return true;
        }
    }

    public boolean close(String id) { // refused
        Account account = accounts.get(id);
        if (account == null) {
            return false;
        }
        synchronized (account.lock) {
            account.closed = true;
            accounts.remove(id, account);
            return true;
        }
    }
}

class AnotherObject {
    private static final class Account {
        final Object lock = new Object();
        long balance;
        boolean closed;
    }

    private final ConcurrentMap<String, Account> accounts = new ConcurrentHashMap<>();

    public boolean open(String id) { // accepted
        return accounts.putIfAbsent(id, new Account()) == null;
    }

    public boolean add(String id, long amount) { // refused
        Account account = accounts.get(id);
        if (account == null) {
            return false;
        }
        synchronized (account) {
            if (account.closed) {
                return false;
            }
            account.balance += amount;
            return true;
        }
    }

    public boolean close(String id) { // refused
        Account account = accounts.get(id);
        if (account == null) {
            return false;
        }
        Account other = accounts.get("other");
        synchronized (account) {
            account.closed = true;
            accounts.remove("other", other);
            return true;
        }
    }
}
