-- Loops, and catches the error that would end the loop.
make("cell")
while true do pcall(function() while true do end end) end
