-- The raw length of a table with holes can be 2^52, though it has few elements.
local sparse = { [5] = true, [9] = true }
for power = 0, 52 do sparse[1 << power] = true end
say("the length is 2^52:", #sparse == 1 << 52)
pcall(table.remove, sparse, 1)
while true do pcall(table.insert, sparse, 1, true) end
