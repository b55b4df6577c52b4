// forEach calls the lambda at once, but once for each element, and each call takes the lock and gives it back.
import java.util.List;

class LambdaInLoop {
    @GuardedBy("this") private int sum;

    synchronized void add(int one) {
        sum += one;
    }

    /* atomic */ void addAll(List<Integer> numbers) { // refused
        numbers.forEach(one -> add(one));
    }

    /* atomic */ synchronized void addAllLocked(List<Integer> numbers) { // accepted
        for (int one : numbers) {
            sum += one;
        }
    }
}

@interface GuardedBy {
    String value();
}
