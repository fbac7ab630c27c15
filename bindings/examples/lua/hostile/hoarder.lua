-- Makes more than it may have, and then more than it keeps.
local kept = {}
say("kept:", pcall(function() while true do kept[#kept + 1] = make("cell") end end))
say(#kept, "are kept")
kept = nil
for number = 1, 500 do make("cell", number) end
say("500 more were made")
