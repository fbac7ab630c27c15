"""What `tools/check_allocation` reads: the words of sources, their functions and calls, what grows in them, and the
amounts that are asked for."""
