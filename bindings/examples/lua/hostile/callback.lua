-- Fails inside of functions that C functions call.
local function fail() error("it fails", 0) end
say("in a comparison:", pcall(table.sort, { 2, 1 }, fail))
say("in __tostring:", pcall(say, setmetatable({}, { __tostring = fail })))
say("in __tostring, which returns no text:", pcall(say, setmetatable({}, { __tostring = function() return {} end })))
say("in __index:", pcall(function() return setmetatable({}, { __index = fail }).field end))
say("in the handler of xpcall:", xpcall(fail, fail))
say("with no text:", pcall(error, nil))
say("with an error in its text:", select("#", pcall(error, setmetatable({}, { __tostring = fail }))))
say("a wait inside of a comparison:", pcall(table.sort, { 2, 1 }, wait))
local function deep() return deep() + 1 end
say("a recursion:", (pcall(deep)))
local function nest() return (pcall(nest)) end
say("a recursion through pcall:", (pcall(nest)))
error(setmetatable({}, { __tostring = function() while true do end end }))
