-- A plug-in that does nothing wrong. Others hand it handles; at the end it shows that the host went on.
local sum = make("sum", 0, "sum")
for turn = 1, 6 do
  sum:send(turn)
  wait()
end
local count = 0
while receive() do count = count + 1 end
say("goes on:", sum:read(), "with", count, "handles of others")
