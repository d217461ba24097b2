long area(long width, long height) { return width * height; }

long volume(long width, long height, long depth) { return area(width, height) * depth; }
