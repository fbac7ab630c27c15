-- Reads the board and takes from the drawer. It lets go of a hundred objects in two ways.
local function make_many(count, use)
  for number = 1, count do use(make("cell", number)) end
end
make_many(50, function(cell) cell:lose() end) -- gives the rights up
make_many(50, function(cell) end)             -- only forgets the handles: Lua's collector gives the rights up
local board, drawer = receive(), receive()
say("has", board, "and reads", board:read())
say("a write:", pcall(board.send, board, 9))
local counter = drawer:get()
counter:send(2)
say("took", counter, "out of", drawer, "and reads", counter:read())
wait() wait() wait() wait() wait()
say("vault has left, and the board still says", board:read())
