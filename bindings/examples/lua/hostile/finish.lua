-- Ends inside of a comparison, where it can't be left by a yield, and goes on until the end of its turn.
say("a finish inside of a comparison:", pcall(table.sort, { 2, 1 }, finish))
wait()
say("never said")
