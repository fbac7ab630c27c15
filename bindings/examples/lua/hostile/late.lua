-- Keeps handles past their end.
local log, cell = make("log", 2, "log"), make("cell", 5, "cell")
log:lose("r")
say("after r is lost:", pcall(log.read, log))
log:lose()
say("after all is lost:", pcall(log.send, log, 1))
say("to lose it again:", pcall(log.lose, log))
say("to lose a:", pcall(log.lose, log, "a"))
say("to hand it on:", pcall(log.hand, log, "witness", "a"))
wait() wait() wait() wait() -- the host collects: the log's vertex is gone, and the handle is left
say("after a collection:", log, pcall(log.read, log), pcall(log.hand, log, "witness", "a"))
say("to a plug-in that has left:", pcall(cell.hand, cell, "forge", "r"))
