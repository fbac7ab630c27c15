-- Adds to the board. It may read the secret, and can't help the spy to it.
local board, secret = receive(), receive()
say("has", board, "with", board:rights(), "and", secret, "with", secret:rights())
board:send(7)
say("secret to spy:", pcall(secret.hand, secret, "spy", "r"))
say("board to nobody:", pcall(board.hand, board, "nobody", "r"))
say("rights in another order:", pcall(board.hand, board, "spy", "ar"))
say("more than it has:", pcall(board.hand, board, "spy", "w"))
