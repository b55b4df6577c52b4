class Visitor {
    int sum guarded_by this;

    atomic void add(int amount) {
        synchronized (this) {
            this.sum = this.sum + amount;
        }
    }

    atomic void circle(Circle circle) {
    }

    atomic void square(Square square) {
    }
}

class Area extends Visitor {
    atomic void circle(Circle circle) {
        this.add(3 * circle.radius * circle.radius);
    }

    atomic void square(Square square) {
        this.add(square.side * square.side);
    }
}

class Edge extends Visitor {
    atomic void square(Square square) {
        this.add(4 * square.side);
    }
}

class Shape {
    atomic void accept(final Visitor visitor) {
    }
}

class Circle extends Shape {
    final int radius;
    Circle(int radius) { this.radius = radius; }
    atomic void accept(final Visitor visitor) {
        visitor.circle(this);
    }
}

class Square extends Shape {
    final int side;
    Square(int side) { this.side = side; }
    atomic void accept(final Visitor visitor) {
        visitor.square(this);
    }
}

class Walk implements Runnable {
    final Shape shape;
    final Visitor visitor;
    Walk(Shape shape, Visitor visitor) {
        this.shape = shape;
        this.visitor = visitor;
    }
    public void run() {
        this.shape.accept(this.visitor);
    }
}

class Main {
    void main() {
        final Visitor visitor = new Area();
        new Thread(new Walk(new Circle(2), visitor)).start();
        new Thread(new Walk(new Square(3), visitor)).start();
    }
}
