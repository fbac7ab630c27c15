-- A script that begins like bytecode is in the file bytes.lua. Here are the functions that would make some.
say(string.dump, load, loadstring, dofile)
