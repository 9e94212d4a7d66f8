print("<stdin>:2:3: no escape\ne\u0301\\q\n ^")
