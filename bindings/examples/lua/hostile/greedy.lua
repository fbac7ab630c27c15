-- Takes all memory that it gets, again and again.
local text = "x"
say("too much:", pcall(function() while true do text = text .. text end end))
while true do
  pcall(function()
    local list = {}
    while true do list[#list + 1] = { #list } end
  end)
end
