#!/usr/bin/env python3
"""Writes a source of at most so many bytes: classes that use every production of the grammar."""
from __future__ import annotations

import sys

from command_line import count_of, words_of

CLASS = """public class A%d implements Runnable {
    final int n;
    final A%d b;
    int v guarded_by this.b;
    boolean t;
    A%d(int n, final A%d b) { this.n = n; this.b = b; }
    public atomic int f(final A%d x, int y) requires this, x.b {
        final A%d c = x; int d = -y + 2 * (3 - 1) / 4 %% 5;
        boolean e = !true || false && y < 3 == (y >= 4) != (y <= 5) || y > 6;
        if (e) { } else if (!e) d = -2147483648; else ;
        while (d == 1) { c.v = this.n; }
        synchronized (x.b) { this.f(c, d).v = new A%d(1, null).n; }
        System.out.println(d); new Thread(c).start(); new A%d(1, null); this.f(c, 1);
        { return d; }
    }
    void run() { return; }
}
"""


def main() -> None:
    parser = words_of(__doc__)
    parser.add_argument("size", metavar="SIZE", type=count_of, help="so many bytes")
    size = parser.parse_args().size
    out, k = "class Main { void main() { } }\n", 0
    while True:
        text = CLASS % ((k,) * CLASS.count("%d"))
        if len(out) + len(text) > size:
            break
        out, k = out + text, k + 1
    sys.stdout.write(out + " " * (size - len(out)))


if __name__ == "__main__":
    main()
