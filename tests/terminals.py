"""Terminals, by the name that tests know them by."""

from drivers.terminal import Terminal as Terminal
