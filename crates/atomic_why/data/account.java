class Account {
    int balance guarded_by this;

    atomic int read() {
        synchronized (this) {
            return this.balance;
        }
    }

    atomic void add(int amount) {
        synchronized (this) {
            this.balance = this.balance + amount;
        }
    }

    atomic void move(Account other, int amount) {
        if (this.read() >= amount) {
            this.add(-amount);
            other.add(amount);
        }
    }
}

class Mover implements Runnable {
    final Account from;
    final Account to;

    Mover(Account from, Account to) {
        this.from = from;
        this.to = to;
    }

    public void run() {
        int i = 0;
        while (i < 60) {
            this.from.move(this.to, 1);
            i = i + 1;
        }
    }
}

class Main {
    void main() {
        final Account first = new Account();
        final Account second = new Account();
        first.add(100);
        new Thread(new Mover(first, second)).start();
        new Thread(new Mover(first, second)).start();
    }
}
