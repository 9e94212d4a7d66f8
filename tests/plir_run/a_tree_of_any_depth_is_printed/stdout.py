LEVELS = 2_000


def put(columns, text):
    """Prints a line, so far in."""
    print(" " * columns + text)


for level in range(LEVELS):
    put(4 * level, "builtin.module @m ")
    put(4 * level, "{")
    put(4 * level + 2, f"^block{level + 1}v1():")
for level in reversed(range(LEVELS)):
    put(4 * level, "}")
