"""A reporter at a terminal, or with lines from elsewhere: the command `ucl_reporter`."""
