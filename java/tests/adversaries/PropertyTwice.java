// Another thread may set a property between the two.
class PropertyTwice {
    /* atomic */ String f() { // refused
        return System.getProperty("a") + System.getProperty("b");
    }
}
