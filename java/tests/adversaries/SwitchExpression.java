// A case of a switch expression with a block is as good as any branch.
class SwitchExpression {
    volatile int left;
    volatile int right;

    /* atomic */ int pick(int kind) { // refused
        return switch (kind) {
            case 0 -> left;
            default -> {
                int sum = left;
                yield sum + right;
            }
        };
    }
}
