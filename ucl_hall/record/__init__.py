"""A record: a file of rows that only grows, and the board that it is."""
