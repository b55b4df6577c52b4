// What is asked whether it is of a class of the sources has that class's methods, also where its name says Object.
// judged with: --infer
class AskedForItsClass {
    private int count;
    private int sum;

    synchronized void add(int value) {
        count++;
        sum += value;
    }

    public synchronized String toString() {
        return count + "/" + sum;
    }

    /* atomic */ boolean same(Object other) { // refused
        return other instanceof AskedForItsClass && toString().equals(other.toString());
    }

    /* atomic */ boolean sameText(Object other) { // refused
        return other instanceof AskedForItsClass && toString().equals("" + other);
    }

    /* atomic */ boolean isText(Object other) { // accepted
        return other instanceof String && toString().equals(other.toString());
    }
}
