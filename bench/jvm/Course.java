package jvm;

import java.io.ByteArrayOutputStream;
import java.io.PrintStream;
import java.lang.reflect.Field;
import java.lang.reflect.InvocationTargetException;
import java.lang.reflect.Method;
import java.nio.charset.StandardCharsets;
import java.util.ArrayList;
import java.util.Comparator;
import java.util.HashMap;
import java.util.List;
import java.util.Map;

/** One run of a program: what it printed, its objects, and the ends of its threads. */
final class Course {
    final String packageName;
    private final ClassLoader loader;
    private final ByteArrayOutputStream printed = new ByteArrayOutputStream();
    private final List<Recorded> objects = new ArrayList<>();
    private final Map<Integer, Integer> made = new HashMap<>();

    Course(ClassLoader loader, String packageName) {
        this.loader = loader;
        this.packageName = packageName;
        System.setOut(new PrintStream(printed, true));
    }

    /** Keeps an object, and tells how many ones the thread had made before. */
    synchronized int record(Recorded object, int maker) {
        objects.add(object);
        return made.merge(maker, 1, Integer::sum) - 1;
    }

    /** The objects by their addresses. */
    synchronized List<Recorded> ordered() {
        List<Recorded> ordered = new ArrayList<>(objects);
        ordered.sort(Comparator.<Recorded>comparingInt(o -> o.maker).thenComparingInt(o -> o.number));
        return ordered;
    }

    String printed() {
        return printed.toString(StandardCharsets.UTF_8);
    }

    Object newMain() throws ReflectiveOperationException {
        var constructor = loader.loadClass(packageName + ".Main").getDeclaredConstructor();
        constructor.setAccessible(true);
        return constructor.newInstance();
    }

    /** Calls a method without parameters; how the call ends. */
    static String call(Object on, String name) throws ReflectiveOperationException {
        Method method = null;
        for (Class<?> cls = on.getClass(); method == null; cls = cls.getSuperclass()) {
            for (Method own : cls.getDeclaredMethods()) {
                method = own.getName().equals(name) && own.getParameterCount() == 0 ? own : method;
            }
        }
        method.setAccessible(true);
        try {
            method.invoke(on);
            return "done";
        } catch (InvocationTargetException thrown) {
            if (thrown.getCause() instanceof Over over) {
                throw over;
            }
            return ending(thrown.getCause());
        }
    }

    /** The status of a thread that was ended so. */
    static String ending(Throwable thrown) {
        if (thrown instanceof NullPointerException) {
            return "faulted null";
        }
        if (thrown instanceof ArithmeticException) {
            return "faulted zero";
        }
        return thrown instanceof StackOverflowError ? "faulted depth" : "faulted " + thrown;
    }

    /** The text of the state, as docs/formats.md has it; the lines of locks and threads are given. */
    String state(List<String> locks, List<String> threads) throws ReflectiveOperationException {
        StringBuilder text = new StringBuilder();
        printed().lines().forEach(line -> text.append("print ").append(line).append('\n'));
        for (Recorded object : ordered()) {
            text.append("object ").append(Recorded.address(object)).append(' ');
            text.append(object.getClass().getSimpleName());
            fields(object, object.getClass(), text);
            text.append('\n');
        }
        locks.forEach(line -> text.append("lock ").append(line).append('\n'));
        for (int k = 0; k < threads.size(); k++) {
            text.append("thread ").append(k).append(' ').append(threads.get(k)).append('\n');
        }
        return text.toString();
    }

    private static void fields(Recorded object, Class<?> cls, StringBuilder text) throws ReflectiveOperationException {
        if (cls == Recorded.class) {
            return;
        }
        fields(object, cls.getSuperclass(), text);
        for (Field field : cls.getDeclaredFields()) {
            field.setAccessible(true);
            text.append(' ').append(field.getName()).append('=').append(Recorded.address(field.get(object)));
        }
    }
}
