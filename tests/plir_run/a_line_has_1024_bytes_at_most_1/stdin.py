print("module " + "a" * 1017, end="")
