// map() doesn't call the lambda. It is called when the stream is read, once for each element, and each call takes the lock and gives
// it back: also here, where the lambda stands inside the synchronized block.
import java.util.List;
import java.util.stream.Stream;

class LazyLambda {
    @GuardedBy("this") private int number;

    synchronized int next(int given) {
        number += given;
        return number;
    }

    Stream<Integer> numbers(List<Integer> given) {
        synchronized (this) {
            return given.stream().map(one -> next(one));
        }
    }

    /* atomic */ int sum(List<Integer> given) { // refused
        return numbers(given).mapToInt(one -> one).sum();
    }
}

@interface GuardedBy {
    String value();
}
