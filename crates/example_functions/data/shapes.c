struct square {
    long side;
};

static long doubled(long n) { return 2 * n; }

long perimeter(const struct square *s) { return doubled(doubled(s->side)); }

/*
 * This file and area.c are the source of shapes.so, which gcc 12 made in this folder by
 *   gcc -gdwarf-5 -O1 -fno-asynchronous-unwind-tables -shared -nostdlib -fPIC \
 *     -fdebug-prefix-map=$PWD=/src -Wl,--build-id=none -Wl,--hash-style=gnu \
 *     -Wl,-z,noseparate-code -Wl,-z,norelro shapes.c area.c -o shapes.so
 */
