"""What people touch of the board: records, terminals, pages. The table itself is `ucl_live`'s, and
no rule of events stands here. Each line uses those above it:

    faults, text, rows, program    what is told, text from outside, rows, how programs end
    engine                         `ucl_live` and `ucl_follow`: runs, answers, events that stand
    record                         a file of rows that only grows, and the child that follows it
    remote                         a board behind a server, by the link of a reporter
    terminal                       the command `ucl_reporter`
    web                            the command `ucl_serve`
"""
