-- Patterns take a time that grows with a power of the text. There are none.
local text = ("a"):rep(30000)
say(text.find, text.match, text.gmatch, text.gsub, string.find)
say(pcall(function() return text:find((".-"):rep(20) .. "b") end))
