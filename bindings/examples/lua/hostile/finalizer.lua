-- A finalizer runs without a hook. So a script has none, and no weak table either.
local function loop() while true do end end
say("__gc:", pcall(setmetatable, {}, { __gc = loop }))
say("__mode:", pcall(setmetatable, {}, { __mode = "k" }))
local late = {}
setmetatable({}, late)
late.__gc, late.__mode = loop, "k" -- the object has a copy of its metatable, without these
for number = 1, 20000 do local garbage = { number } end
say("goes on")
