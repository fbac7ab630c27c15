Lua is how bytecode begins
