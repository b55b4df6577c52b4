// A stream of bytes takes its lock for each read, and some of its methods read again and again.
import java.io.ByteArrayInputStream;
import java.io.IOException;
import java.io.OutputStream;

class ReadsAgain {
    private final ByteArrayInputStream in = new ByteArrayInputStream(new byte[9]);

    /* atomic */ byte[] some() throws IOException { // refused
        return in.readNBytes(7);
    }

    /* atomic */ void skip() throws IOException { // refused
        in.skipNBytes(7);
    }

    /* atomic */ byte[] all() { // accepted
        return in.readAllBytes();
    }
}
