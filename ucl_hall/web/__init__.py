"""Screens and phones of several groups: the command `ucl_serve`."""
