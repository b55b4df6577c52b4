// Nobody knows what is called.
import java.lang.reflect.Method;

class ReflectiveCall {
    /* atomic */ synchronized Object call(Method method) throws Exception { // refused
        return method.invoke(this);
    }
}
