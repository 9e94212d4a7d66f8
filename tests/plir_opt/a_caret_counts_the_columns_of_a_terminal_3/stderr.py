print("<stdin>:2:2: no escape\n\u0001\\q\n ^")
