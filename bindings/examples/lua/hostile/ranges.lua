-- Makes C functions go over ranges that no table has.
local far = 2 ^ 53 // 1 | 0
local long = setmetatable({}, { __len = function() return far end, __index = rawlen, __newindex = rawequal })
say("table.move:", table.move)
for _, name in ipairs { "insert", "remove", "sort", "concat", "unpack" } do
  say("table." .. name .. " with a length of its own:", pcall(table[name], long, 1))
end
say("table.concat from 1 to 2^53:", pcall(table.concat, {}, "", 1, far))
say("table.unpack from 1 to 2^53:", pcall(table.unpack, {}, 1, far))
say("string.rep 2^53 times:", pcall(string.rep, "", far), pcall(string.rep, "", 65536))
