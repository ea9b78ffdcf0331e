"""A board behind a server: a terminal on another machine connects as a phone does."""
