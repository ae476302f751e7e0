"""Rows by hand of journals: how `judge` judges them."""

# An owner reads a promise of task 0 that is handed on before it reads the owner again.
HANDED_ON = ("make 0\nfork 0\nfork 0\nfork 0\nclose 4 4\npublish 0 4\nothers 0\nsettle 0\nraise 2\npublish 2 1\n"
             "count 2\nowner 2\nwait 2\nunwait 0\nhand 0 1 3\nagain 2\n")

CYCLE_OF_THREE = ("fork 0\nfork 0\npublish 0 2\nothers 0\nsettle 0\npublish 2 1\nothers 2\nsettle 2\nraise 1\n"
                  "publish 1 0\ncount 1\nowner 1\nwait 1\nagain 1\nowner 1\nwait 1\nagain 1\nowner 1\nalarm 1\n")

# What a row shows, the limit of cells, a journal, and the text.
JOURNALS = (
    ("a walk settles after two loads", 4, "fork 0\nraise 1\npublish 1 0\ncount 1\nowner 1\nwait 1\nsettle 1\n",
     "task 1 walked after 2 loads\nlegal 7 events\n"),
    ("a promise is handed on between two reads of its owner, so there is no alarm", 8, HANDED_ON + "alarm 2\n",
     "task 0 skipped\nillegal at line 17\n"),
    ("and the walk settles", 8, HANDED_ON + "settle 2\n",
     "task 0 skipped\ntask 2 walked after 3 loads\nlegal 17 events\n"),
    ("a wait along the order reads OTHERS as zero, and the child owns its result", 4,
     "fork 0\npublish 0 1\nothers 0\nsettle 0\nunwait 0\n", "task 0 skipped\nillegal at line 5\n"),
    ("a task waits for its own promise", 2, "make 0\nraise 0\npublish 0 1\ncount 0\nowner 0\nalarm 0\n",
     "task 0 alarmed after 1 loads: 0 waits for 1\nlegal 6 events\n"),
    ("a promise is no task", 2, "make 0\nraise 1\n", "illegal at line 2\n"),
    ("a cycle of three where a cell is wanting", 2, CYCLE_OF_THREE, "illegal at line 2\n"),
    ("a close of a promise by another task", 3, "make 0\nfork 0\nclose 2 1\n", "illegal at line 3\n"),
    ("a fork beyond the limit", 3, "fork 0\nfork 0\nfork 0\n", "illegal at line 3\n"),
    ("a lower with nothing cleared", 3, "make 0\nfork 0\nlower\n", "illegal at line 3\n"),
    ("a hand to oneself", 3, "make 0\nfork 0\nhand 0 1 0\n", "illegal at line 3\n"),
    ("a wait for a cell that isn't there", 3, "make 0\nraise 0\npublish 0 4\n", "illegal at line 3\n"),
    ("a hand to a child that isn't fresh", 4, "make 0\nfork 0\nmake 2\nhand 0 1 2\n", "illegal at line 4\n"),
    ("loads are counted from the publish on", 256,
     "make 0\nmake 0\nfork 0\nraise 3\npublish 3 1\ncount 3\nowner 3\nwait 3\nsettle 3\nclose 0 1\nunwait 3\n"
     "raise 3\npublish 3 2\ncount 3\nowner 3\nwait 3\nsettle 3\n",
     "task 3 walked after 2 loads\ntask 3 walked after 2 loads\nlegal 17 events\n"),
    ("a last line without a line feed", 256, "make 0\nfork 0\nclose 2 2\nclose 0 1\nclose 0 0", "legal 5 events\n"),
    ("the greatest number", 256, "fork 4294967295", "illegal at line 1\n"),
)

# What a row shows, a journal, and the number of its first line that is no event.
FAULTS = (
    ("a word without its cell", "raise", 1),
    ("a leading zero", "fork 0\nfork 01\n", 2),
    ("a number that is too great", "fork 4294967296\n", 1),
    ("two spaces", "fork 0\nfork  0\n", 2),
    ("a space at the end", "fork 0 \n", 1),
    ("an empty line", "fork 0\n\nfork 0\n", 2),
    ("a carriage return", "fork 0\r\n", 1),
    ("a plus sign", "fork +0\n", 1),
    ("a cell too many", "lower 0\n", 1),
    ("a word that is no event's", "hop 0\n", 1),
    ("a line feed alone", "\n", 1),
)
