print("module " + "a" * 1018, end="")
