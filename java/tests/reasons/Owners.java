// judged with: --public --infer

/** Whose objects the two steps touch: who holds the lock of this object keeps nobody away from the other one. */
public class Owners {

    public static final class Text {
        private int count;
        private char[] chars = new char[9];

        public synchronized int length() {
            return count;
        }

        public synchronized char at(int place) {
            if (place >= count) {
                throw new IndexOutOfBoundsException(place);
            }
            return chars[place];
        }

        public synchronized void cut(int length) {
            count = Math.min(count, length);
        }

        public synchronized void append(Text other) { // refused: certain: the other one may be cut behind the look at its length
            int more = other.length();
            chars = java.util.Arrays.copyOf(chars, count + more);
            for (int k = 0; k < more; k++) {
                chars[count + k] = other.at(k);
            }
            count += more;
        }

        public void appendWhole(Text other) { // accepted
            synchronized (other) {
                int sum = 0;
                for (int k = 0; k < other.length(); k++) {
                    sum += other.at(k);
                }
            }
        }
    }

    public static final class Together {
        private static final Object ALL = new Object();
        private int count;
        private int last;

        public synchronized int length() {
            return count;
        }

        public synchronized int last() {
            return last;
        }

        public void cut(int length) {
            synchronized (ALL) {
                synchronized (this) {
                    count = length;
                    last = 0;
                }
            }
        }

        public int both(Together other) { // refused: alarm: who changes the other one takes the lock of all
            synchronized (ALL) {
                synchronized (this) {
                    return other.length() + other.last();
                }
            }
        }
    }
}
