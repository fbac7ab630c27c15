-- Loops inside of a __close, as its block is left by the error that ends the loop.
do
  local guard <close> = setmetatable({}, { __close = function() while true do end end })
  while true do end
end
