// A private field that only constructors set is as good as a final one; one that anything else sets isn't.
import java.lang.invoke.MethodHandles;
import java.lang.invoke.VarHandle;

class SetByConstructor {
    static volatile SetByConstructor last;
    private int first;
    private int late;
    private int ofOthers;
    private int named;
    private int inner;

    SetByConstructor(int first) {
        this.first = first;
        last = this;
        late = first;
    }

    static VarHandle handle() throws ReflectiveOperationException {
        return MethodHandles.lookup().findVarHandle(SetByConstructor.class, "named", int.class);
    }

    /* atomic */ int kept() { // accepted
        return first + first;
    }

    /* atomic */ int late() { // refused: the constructor lets its object get away before it sets the field
        return late + late;
    }

    void give(SetByConstructor other) {
        other.ofOthers = 1;
    }

    /* atomic */ int ofOthers() { // refused: a method sets it for another object
        return ofOthers + ofOthers;
    }

    /* atomic */ int named() { // refused: a handle may set it
        return named + named;
    }

    Runnable later() {
        return () -> inner = 1;
    }

    /* atomic */ int inner() { // refused: a function sets it
        return inner + inner;
    }
}
