-- Hands handles to all, more than they may have.
local ok, why = true, nil
local given = 0
wait()
while ok do
  local cell = make("cell", given, "gift")
  ok, why = pcall(cell.hand, cell, "brim", "r")
  if ok then given = given + 1 end
end
say("brim got", given, "and then", why)
for number = 1, 3 do make("cell", number, "gift"):hand("witness", "r") end
