// nextLong draws twice, and nextInt draws again until a number fits.
import java.util.*;

class RandomDraws {
    private final Random random = new Random();

    /* atomic */ long draw() { // refused
        return random.nextLong();
    }

    /* atomic */ int bounded() { // refused
        return random.nextInt(10);
    }
}
