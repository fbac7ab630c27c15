-- Holds nothing that the policy guards. So it may share a drawer with the spy.
local drawer = make("box", 0, "drawer")
drawer:put(make("sum", 40, "counter"), "rw")
drawer:hand("spy", "tl")
