package atomic.java.passes;

import atomic.java.skeleton.Method;
import atomic.java.skeleton.Part;
import java.util.ArrayDeque;
import java.util.Collection;
import java.util.Deque;
import java.util.HashSet;
import java.util.Set;

/** Which methods run while some lock is held, under whatever name: perhaps, or at each call that is known. */
final class UnderLock {
    private final Callees callees;
    private final Set<Method> ever = new HashSet<>();
    private final Set<Method> always = new HashSet<>();
    private final Set<Method> heldAt = new HashSet<>();
    private final Set<Method> freeAt = new HashSet<>();
    private final Deque<Method> waiting = new ArrayDeque<>();

    UnderLock(Collection<Method> methods) {
        callees = new Callees(methods);
        methods.forEach(method -> findEver(method.body(), !method.required().isEmpty()));
        methods.stream().filter(each -> each.closed() && ever.contains(each)).forEach(always::add);
        methods.stream().filter(each -> !isAlways(each)).forEach(waiting::add);
        while (!waiting.isEmpty()) {
            dropUnlocked(waiting.remove().body());
        }
    }

    /** Whether some call of the method comes where a lock is held. */
    boolean isEver(Method method) {
        return ever.contains(method) || isAlways(method);
    }

    /** Whether only code at hand calls the method, which it does, and each such call comes where a lock is held. */
    boolean isAlways(Method method) {
        return always.contains(method) || method.wrapped() || !method.required().isEmpty();
    }

    private void findEver(Part part, boolean held) {
        if (held && part instanceof Part.Call call && heldAt.add(call.target())) {
            for (Method callee : callees.of(call.target())) {
                if (ever.add(callee)) {
                    findEver(callee.body(), true);
                }
            }
        }
        part.parts().forEach(each -> findEver(each, held || isLocked(part)));
    }

    /** What is called here outside of regions isn't always called under a lock, nor is what that calls. */
    private void dropUnlocked(Part part) {
        if (part instanceof Part.Call call && freeAt.add(call.target())) {
            callees.of(call.target()).stream().filter(always::remove).filter(each -> !isAlways(each)).forEach(waiting::add);
        } else if (!isLocked(part)) {
            part.parts().forEach(this::dropUnlocked);
        }
    }

    private static boolean isLocked(Part part) {
        return part instanceof Part.Region region && region.mode() != Part.Mode.NONE;
    }
}
