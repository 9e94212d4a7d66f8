print("module m\n" * 2_000 + "text", end="")
