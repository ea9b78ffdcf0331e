"""The program `ucl_live`: its runs, its answers, the events that stand, what a mend would do."""
