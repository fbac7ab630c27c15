-- Says as much as it may.
local line = ("la"):rep(5000)
say(#line, "bytes, of which the line has 500:", line)
for number = 1, 1000000 do if number > 3 then make("cell") else say(number) end end
