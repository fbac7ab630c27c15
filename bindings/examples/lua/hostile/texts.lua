-- Each comparison of two long texts is one instruction. So a turn has a limit of time, too.
local one, other = ("x"):rep(65536):rep(12), ("x"):rep(65536):rep(12)
while one == other do end
