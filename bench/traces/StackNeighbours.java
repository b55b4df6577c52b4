package java.util;

/** What a stack does. */
class StackNeighbours {
    private final CopiedStack<Object> stack = new CopiedStack<>();

    void pushes() {
        stack.push("x");
    }

    Object pops() {
        return stack.pop();
    }

    Object peeks() {
        return stack.peek();
    }

    int searches() {
        return stack.search("x");
    }
}
