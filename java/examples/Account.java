import java.util.ArrayList;
import java.util.List;

public final class Account {
    private int balance;
    private final List<String> history = new ArrayList<>();

    public synchronized int read() { return balance; }

    public synchronized void add(int amount) {
        balance += amount;
        history.add("add " + amount);
    }

    public boolean withdraw(int amount) {
        if (read() < amount) {
            return false;
        }
        add(-amount);
        return true;
    }
}
