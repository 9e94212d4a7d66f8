print('x = builtin.constant <builtin.string "\ne\u0301\\q')
