-- Loops inside of a function that a C function calls.
table.sort({ 3, 2, 1 }, function() while true do pcall(function() while true do end end) end end)
