public class Account {
    private int balance = 0;

    public synchronized int read() {
        return balance;
    }

    public synchronized void add(int amount) {
        balance += amount;
    }

    public void move(Account other, int amount) {
        if (read() >= amount) {
            add(-amount);
            other.add(amount);
        }
    }

    public static void main(String[] args) {
        Account[] accounts = { new Account(), new Account() };
        accounts[0].add(100);
        for (int k = 0; k < 2; k++) {
            new Thread(() -> {
                for (int i = 0; i < 60; i++) {
                    accounts[0].move(accounts[1], 1);
                }
            }).start();
        }
    }
}
