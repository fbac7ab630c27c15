-- Counts days in a log and a sum. The host may be killed at any time: a script that starts anew finds its objects in its inbox, by
-- the names that it gave them.
local mine = {}
for handle in receive do mine[tostring(handle)] = handle end
local days = mine["days of diary"] or make("log", 4, "days")
local total = mine["total of diary"] or make("sum", 0, "total")
pcall(days.hand, days, "reader", "r")
say("begins with a total of", total:read())
for day = total:read() + 1, 6 do
  days:send(day)
  total:send(1)
  say("day", day, "and the days", days:read())
  wait()
end
