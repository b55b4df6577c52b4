class Main { int v guarded_by this; atomic void main() { synchronized (this) { this.v = 7; } } }
