// The logger calls the function at once, where the level is on.
import java.util.logging.Logger;

class LoggedText {
    private static final Logger LOGGER = Logger.getLogger("log");
    volatile int left;
    volatile int right;

    /* atomic */ void log() { // refused
        LOGGER.info(() -> left + " " + right);
    }
}
