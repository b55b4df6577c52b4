package atomic.trace;

import java.lang.reflect.Constructor;
import java.lang.reflect.Method;
import java.lang.reflect.Modifier;
import java.math.BigDecimal;
import java.nio.file.Path;
import java.util.ArrayList;
import java.util.Arrays;
import java.util.Collection;
import java.util.Comparator;
import java.util.HashMap;
import java.util.List;
import java.util.Map;
import java.util.Random;
import java.util.concurrent.Callable;
import java.util.concurrent.TimeUnit;
import java.util.function.Function;

/**
 * Runs the methods of a class in three threads on two objects, and writes the log: {@code Runner CLASS FIRST COUNT FOLDER} makes so many
 * runs, from the seed FIRST on. Which methods are called, with which arguments, and which thread goes on is drawn by the seed.
 */
public final class Runner {
    private static final int THREADS = 3;
    private static final int CALLS = 4;
    private final Random random;
    private final List<Object> objects = new ArrayList<>();
    private final List<Method> methods = new ArrayList<>();

    private Runner(long seed) {
        random = new Random(seed);
    }

    public static void main(String[] words) throws Exception {
        for (long seed = Long.parseLong(words[1]); seed < Long.parseLong(words[1]) + Long.parseLong(words[2]); seed++) {
            Log log = new Log();
            Scheduler scheduler = new Scheduler(seed, log);
            Trace.begin(scheduler, log);
            try {
                new Runner(seed).run(Class.forName(words[0]));
            } catch (Scheduler.Stopped over) {
                log.add("main", "stopped", over.getMessage());
            }
            log.write(Path.of(words[3], words[0] + "-" + seed + ".log"));
        }
    }

    private void run(Class<?> type) throws Exception {
        methods.addAll(callable(type));
        for (int k = 0; k < 2; k++) {
            objects.add(made(type, 0));
        }
        for (Class<?> inner : type.getDeclaredClasses()) {
            if (!inner.isEnum() && !inner.isInterface() && !inner.isRecord() && !Modifier.isPrivate(inner.getModifiers())) {
                Object object = made(inner, 0);
                if (object != null) {
                    objects.add(object);
                    methods.addAll(callable(inner));
                }
            }
        }
        List<Thread> threads = new ArrayList<>();
        for (int k = 0; k < THREADS; k++) {
            threads.add(new Thread(this::callSome));
        }
        threads.forEach(thread -> Trace.start("", thread));
        for (Thread thread : threads) {
            Trace.join("", thread);
        }
    }

    private static List<Method> callable(Class<?> type) {
        return Arrays.stream(type.getDeclaredMethods())
            .filter(each -> !Modifier.isPrivate(each.getModifiers()) && !each.isSynthetic() && !each.isBridge())
            .sorted(Comparator.comparing(Method::toGenericString)).toList();
    }

    private void callSome() {
        for (int k = 0; k < CALLS && !methods.isEmpty(); k++) {
            Method method = methods.get(random.nextInt(methods.size()));
            List<Object> receivers = objects.stream().filter(method.getDeclaringClass()::isInstance).toList();
            if (receivers.isEmpty() && !Modifier.isStatic(method.getModifiers())) {
                continue;
            }
            Object receiver = receivers.isEmpty() ? null : receivers.get(random.nextInt(receivers.size()));
            call(method, receiver);
        }
    }

    private void call(Method method, Object receiver) {
        try {
            method.setAccessible(true);
            method.invoke(receiver, arguments(method.getParameterTypes(), 1));
        } catch (java.lang.reflect.InvocationTargetException failed) {
            if (failed.getCause() instanceof Error error) {
                throw error;
            }
        } catch (ReflectiveOperationException failed) {
            throw new IllegalStateException(failed);
        }
    }

    private Object[] arguments(Class<?>[] types, int depth) {
        return Arrays.stream(types).map(type -> value(type, depth)).toArray();
    }

    private Object made(Class<?> type, int depth) {
        if (depth > 2 || Modifier.isAbstract(type.getModifiers()) || type.isEnum()) {
            return null;
        }
        for (Constructor<?> constructor : type.getDeclaredConstructors()) {
            try {
                constructor.setAccessible(true);
                return constructor.newInstance(arguments(constructor.getParameterTypes(), depth + 1));
            } catch (ReflectiveOperationException | RuntimeException failed) {
                continue;
            }
        }
        return null;
    }

    private Object value(Class<?> type, int depth) {
        List<Object> shared = objects.stream().filter(type::isInstance).toList();
        if (!shared.isEmpty() && type != Object.class) {
            return shared.get(random.nextInt(shared.size()));
        }
        if (type.isPrimitive()) {
            return primitive(type);
        }
        if (type.isEnum()) {
            return type.getEnumConstants()[random.nextInt(type.getEnumConstants().length)];
        }
        if (type.isArray()) {
            return array(type.getComponentType());
        }
        Object known = known(type);
        return known != null || type.getName().startsWith("java.") ? known : made(type, depth);
    }

    private Object array(Class<?> part) {
        Object array = java.lang.reflect.Array.newInstance(part, 3);
        for (int k = 0; k < 3; k++) {
            java.lang.reflect.Array.set(array, k, value(part, 2));
        }
        return array;
    }

    private Object primitive(Class<?> type) {
        int number = 1 + random.nextInt(3);
        if (type == boolean.class) {
            return number > 1;
        } else if (type == char.class) {
            return (char) ('a' + number);
        } else if (type == long.class) {
            return (long) number;
        } else if (type == double.class) {
            return (double) number;
        } else if (type == byte.class) {
            return (byte) number;
        } else if (type == short.class) {
            return (short) number;
        }
        return type == float.class ? (Object) (float) number : (Object) number;
    }

    private Object known(Class<?> type) {
        int number = 1 + random.nextInt(3);
        if (type.isAssignableFrom(String.class)) {
            return "text" + number;
        } else if (type == Integer.class) {
            return number;
        } else if (type == Long.class) {
            return (long) number;
        } else if (type == BigDecimal.class) {
            return BigDecimal.valueOf(number);
        } else if (type == TimeUnit.class) {
            return TimeUnit.MILLISECONDS;
        } else if (type.isAssignableFrom(ArrayList.class) || type == Collection.class) {
            return new ArrayList<>(List.of("a", "b"));
        } else if (type == Map.class) {
            return new HashMap<>(Map.of("a", "b"));
        } else if (type == Runnable.class) {
            return (Runnable) () -> { };
        } else if (type == Callable.class) {
            return (Callable<Object>) () -> (AutoCloseable) () -> { };
        } else if (type == Function.class) {
            return (Function<Object, Object>) given -> given;
        }
        return null;
    }
}
