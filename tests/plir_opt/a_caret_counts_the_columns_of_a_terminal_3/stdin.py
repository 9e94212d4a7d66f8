print('x = builtin.constant <builtin.string "\n\u0001\\q')
