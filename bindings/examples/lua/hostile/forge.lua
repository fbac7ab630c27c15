-- Tries to make a handle, and to reach into one.
local cell = make("cell", 1, "cell")
local read = cell.read
say("a table:", pcall(read, {}))
say("a number:", pcall(read, 1))
say("a text:", pcall(read, "handle"))
say("a table with the methods of a handle:", pcall(read, setmetatable({}, { __index = cell, __name = "handle" })))
say("the finalizer:", cell.__gc, pcall(function() cell.__gc(cell) end))
say("another metatable:", pcall(setmetatable, cell, {}))
say("the methods:", pcall(function() cell.read = error end), pcall(rawset, cell, 1, 1))
say("the metatable, load and debug:", getmetatable, load, debug, require, io, os, coroutine)
say("what it has:", cell == make("cell"), cell:read())
