print("module " + "a" * 1017)
