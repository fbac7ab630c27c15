-- Gets the host's secret, and makes a board for others.
local secret = receive()
say("has", secret, "with", secret:rights(), "and reads", secret:read())
local board = make("log", 4, "board")
board:send(secret:read() % 10)
board:hand("friend", "ra")
board:hand("spy", "r")
say("a write:", pcall(secret.send, secret, 1))
say("secret to spy:", pcall(secret.hand, secret, "spy", "r"))
secret:hand("friend", "r")

-- Who may take from a drawer gets what lies in it. This plug-in could put the secret there without asking the host.
local drawer = make("box", 0, "drawer")
say("drawer to spy:", pcall(drawer.hand, drawer, "spy", "tl"))

wait()
wait()
say("the board:", board:read())
board:lose("a")
say("without a:", pcall(board.send, board, 1))
board:lose()
say("without r:", pcall(board.read, board))
finish()
say("never said")
