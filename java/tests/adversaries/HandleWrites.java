// No assignment names the field, but a handle does, by a text.
import java.lang.invoke.*;

class HandleWrites {
    private int v;
    private static final VarHandle V;

    static {
        try {
            V = MethodHandles.lookup().findVarHandle(HandleWrites.class, "v", int.class);
        } catch (ReflectiveOperationException bad) {
            throw new ExceptionInInitializerError(bad);
        }
    }

    void set() {
        V.setVolatile(this, 1);
    }

    /* atomic */ int f() { // refused
        return v + v;
    }
}

class HandleByAnyName {
    private int v;

    static VarHandle named(String name) throws ReflectiveOperationException {
        return MethodHandles.lookup().findVarHandle(HandleByAnyName.class, name, int.class);
    }

    static VarHandle ofV() throws ReflectiveOperationException {
        return named("v");
    }

    /* atomic */ int f() { // refused: the name may be any
        return v + v;
    }
}
