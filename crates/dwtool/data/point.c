struct point { int x, y; };

static int square(int n) { return n * n; }

int length(const struct point *p) { return square(p->x) + square(p->y); }

/*
 * The source of point.so, which gcc 12 made in this folder by
 *   gcc -gdwarf-5 -O1 -fno-asynchronous-unwind-tables -shared -nostdlib -fPIC \
 *     -fdebug-prefix-map=$PWD=/src -Wl,--build-id=none -Wl,--hash-style=gnu \
 *     -Wl,-z,noseparate-code -Wl,-z,norelro point.c -o point.so
 */
