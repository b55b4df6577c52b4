class Tickets {
    int last;
    atomic int draw() {
        this.last = this.last + 1;
        return this.last;
    }
}

class Guest implements Runnable {
    final Tickets tickets;
    Guest(Tickets tickets) { this.tickets = tickets; }
    public void run() {
        System.out.println(this.tickets.draw());
    }
}

class Main {
    void main() {
        final Tickets tickets = new Tickets();
        new Thread(new Guest(tickets)).start();
        new Thread(new Guest(tickets)).start();
    }
}
