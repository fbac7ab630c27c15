-- A plug-in that does this and that, by the number that it starts with. It is one of 60.
local name, state = ...
local kept = {}

local function random(below)
  state = (state * 1103515245 + 12345) % 2147483648
  return state // 65536 % below
end

local function choice(list) return list[random(#list) + 1] end

local function some() return kept[random(#kept) + 1] end

local function try(call, ...)
  local ok, result = pcall(call, ...)
  if ok and result ~= nil then kept[#kept + 1] = result end
end

local function other() return "p" .. random(60) end

local RIGHTS = { "r", "w", "rw", "a", "ra", "t", "g", "tl", "tgl" }

local kinds = { "cell", "sum", "max", "log", "box" }

local deeds = {
  function() try(make, choice(kinds), 1 + random(9), "thing") end,
  function() try(make, "box", 0, "box") end,
  function() local it = some(); pcall(it.send, it, random(100)) end,
  function() local it = some(); pcall(it.send, it, random(100)) end,
  function() local it = some(); pcall(it.read, it) end,
  function() local it = some(); pcall(it.read, it) end,
  function() local it = some(); pcall(it.lose, it, choice(RIGHTS)) end,
  function() local it = some(); pcall(it.lose, it) end,
  function() local it = some(); pcall(it.hand, it, other(), choice(RIGHTS)) end,
  function() local it = some(); if it:rights() ~= "" then pcall(it.hand, it, other(), it:rights()) end end,
  function() local it = some(); pcall(it.put, it, some(), choice(RIGHTS)) end,
  function()
    for _, it in ipairs { select(2, pcall(some().get, some())) } do
      if type(it) == "userdata" then kept[#kept + 1] = it end
    end
  end,
  function() local it = receive(); while it do kept[#kept + 1] = it; it = receive() end end,
}
for number = 1, 8 do deeds[#deeds + 1] = function() table.remove(kept, random(#kept) + 1) end end

local ends = {
  function() finish() end,
  function() error("it fails") end,
  function() while true do pcall(function() while true do end end) end end,
  function() while true do pcall(function() local t = {}; while true do t[#t + 1] = { t } end end) end end,
  function() table.sort({ 3, 2, 1 }, function() while true do end end) end,
  function() pcall(table.sort, { 2, 1 }, finish) end,
  function()
    local list = { [5] = true, [9] = true }
    for power = 0, 52 do list[1 << power] = true end
    table.remove(list, 1)
  end,
}

while true do
  for number = 1, 30 do
    if #kept == 0 then deeds[random(2) + 1]() else choice(deeds)() end
  end
  while #kept > 50 do table.remove(kept) end
  wait()
  if random(60) == 0 then choice(ends)() end
  if random(500) == 0 then break end
end
