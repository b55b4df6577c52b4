// What serialisation calls on a new object, a method here calls on one that others know.
import java.io.*;

class ReadObjectCalled implements Serializable {
    volatile int left;
    volatile int right;

    private void readObject(ObjectInputStream stream) throws IOException {
        left = 1;
        right = 2;
    }

    /* atomic */ void reload(ObjectInputStream stream) throws IOException { // refused
        readObject(stream);
    }
}
