"""What tests drive: a program, a terminal, a server and who connects to it, a board of its own."""
