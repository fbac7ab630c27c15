-- May read the days and nothing else, also after the host was killed.
local days = receive()
while not days do wait() days = receive() end
say("has", days, "with", days:rights())
for turn = 1, 3 do
  say("reads", days:read())
  say("a write:", pcall(days.send, days, 99))
  wait()
end
