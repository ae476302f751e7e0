"""Rows by hand of `tj-why`: what went wrong with a script's run, and where each task stands."""

OWED = "task main() {\n  let p = new;\n  return 0;\n}\n"
ANCESTOR = "task main() { fork kid(me); }\ntask kid(p) { let v = join p; }\n"
ITSELF = "task main() { print 4; join me; }"
OWES_AT_THE_BRACE = "task main() { let p = new; fork kid(); } task kid() { }"
# Forks in a loop, a cycle of two, a refused fork, and a letter of two bytes.
SEVERAL = (
    "task left(mine, other) {\n\tlet z = get other; set mine = z;\n}\n"
    "task main() {\n  let p = new; let q = new;\n  let k = 2;\n  while k {\n"
    "    while k > 1 { k = k - 1; print k; }\n"
    "    if k { fork mid(own p, q); if 0 { print 8; } else { fork left(own q, p); }\n"
    "    } else { print 9; }\n    k = k * 3 - 3;\n  }\n  let r = new; # é\n"
    "  let s = fork faulty(own r);\n  let o = join s or 5; print o;\n"
    "  if o { let u = get r or -me; }\n  print 3;\n}\n"
    "task mid(m, n) {\n  fork left(own m, n);\n}\n"
    "task faulty(x) {\n  let y = 4; while y { y = y - 1; if y == 2 { fork take(own x, own x); } }\n}\n"
    "task take(a, b) { }\n")
IN_A_LOOP = ("task main() {\r\n\tlet i = 0;\r\n\twhile i < 2 {\r\n\t\tfork f(i);\r\n\t\ti = i + 1;\r\n\t}\r\n}\r\n"
             "task f(n) { if n == 1 { get me; } }")

# Tasks that wait for a promise of a task that waits for itself.
MANY = ("task main() {\n  let p = new;\n  let i = 0;\n  while i < 30 { fork client(p); i = i + 1; }\n  get p;\n}\n"
        "task client(p) { get p; }\n")
# Failures at one statement, and two tasks that wait for themselves, forked at two.
CROWD = ("task main() {\n  let i = 0;\n  while i < 3 { fork client(i); i = i + 1; }\n  fork loner();\n  fork loner();\n"
         "}\ntask client(i) { let p = new; let x = 1 / 0; }\ntask loner() { let p = new; get p; }\n")

# A cycle of two, and a task that waits behind it.
DEADLOCK = ("task main() {\n  let p = new;\n  let q = new;\n  fork a(own p, q);\n  fork a(own q, p);\n  let x = get p;\n}\n"
            "task a(mine, other) {\n\tlet z = get other; set mine = z;\n}\n")

# A promise that its task had handed on, set before, that another set, that another owned, and handed twice.
WENT = ("task main() {\n  let p = new;\n  let q = new;\n  fork f(own p, -7);\n  fork g(p);\n  fork g(q);\n"
        "  fork h();\n  set p = 1;\n}\ntask f(p, n) { set p = n; set p = 2; }\ntask g(x) { set x = 3; }\n"
        "task h() { let r = new; fork k(own r, own r); }\ntask k(a, b) { }\n")

# Two tasks that had handed their promises on, and two whose promises others set.
WENT_ALIKE = ("task main() {\n  let i = 0;\n  while i < 2 { let p = new; fork f(own p); fork g(p); i = i + 1; }\n}\n"
              "task f(p) { fork h(own p); set p = 1; }\ntask g(p) { set p = 2; }\ntask h(p) { set p = 3; }\n")

# What a row shows, the words, a script, and the text.
TOLD = (
    ("a promise owed", "", OWED,
     "owed: the promise 0.1 (p, made at 2:11) was never set: 0 (task main) owned it and ended at 3:3\n"),
    ("the same as a graph", "--dot --steps 7", OWED,
     'digraph tasks {\n  node [shape=box];\n  "0" [label="0\\nmain\\n3:3"];\n'
     '  "0.1" [shape=ellipse, style=filled, fillcolor=khaki];\n  "0.1" -> "0" [style=dotted];\n}\n'),
    ("a join against the order by the strict rule", "--strict --short", ANCESTOR,
     "failed: 0.1 (task kid(0), forked at 1:15) at 2:23: order 0\n"),
    ("the same without it", "", ANCESTOR, "nothing is wrong: 2 tasks ended, each promise was set\n"),
    ("too few cells", "--cells 1 --all", OWED,
     "full: more than 1 cells\n  1 of the first 2 made at 2:11\n"),
    ("a cell too few", "--cells 2", OWES_AT_THE_BRACE,
     "full: more than 2 cells\n  1 of the first 3 made at 1:23\n"),
    ("a statement that made as many as a later one", "--cells 4", "task main() { fork main(); fork main(); }",
     "full: more than 4 cells\n  2 of the first 5 made at 1:15\n"),
    ("promises of the first task before the second task", "--cells 4",
     "task main() { fork a(); fork a(); }\ntask a() { let i = 0; while i < 3 { let p = new; i = i + 1; } }\n",
     "full: more than 4 cells\n  3 of the first 5 made at 2:45\n"),
    ("cells of a round, of which the root has none where it waits", "--cells 3",
     "task main() { let t = fork a(); join t; let p = new; let q = new; let r = new; }\n"
     "task a() { let i = 0; while i < 2 { let p = new; set p = 1; i = i + 1; } }\n",
     "full: more than 3 cells\n  2 of the first 4 made at 2:45\n"),
    ("tasks each of which forks without end", "--cells 4096 --steps 9000",
     "task main() { while 1 { fork f(); } }\ntask f() { while 1 { fork f(); } }\n",
     "full: more than 4096 cells\n  4096 of the first 4097 made at 1:25\n"),
    ("just enough, and a promise that is owed at the closing brace", "--cells 3", OWES_AT_THE_BRACE,
     "owed: the promise 0.1 (p, made at 1:23) was never set: 0 (task main) owned it and ended at 1:40\n"),
    ("several tasks", "--short", SEVERAL,
     "deadlock: 2 tasks wait for each other\n"
     "  0.3.1 (task left(0.1, 0.2), forked at 20:3) waits at 2:10 for the promise 0.2 (q, made at 5:24), "
     "which 0.4 owns\n"
     "  0.4 (task left(0.2, 0.1), forked at 9:57) waits at 2:10 for the promise 0.1 (p, made at 5:11), "
     "which 0.3.1 owns\n"
     "failed: 0 (task main) at 16:18: kind, the task 0 where a number is wanted\n"
     "failed: 0.6 (task faulty(0.5), forked at 14:11) at 23:47: owner 0.5 (r, made at 13:11), handed twice here\n"
     "  owed: the promise 0.5 (r, made at 13:11) was never set: "
     "0.6 (task faulty(0.5), forked at 14:11) owned it and failed at 23:47\n"),
    ("a task at its second wait, and a promise that was set", "--short",
     "task main() {\n  let p = new; let q = new;\n  set p = 1;\n  let a = get p; let b = get q;\n}",
     "deadlock: 1 task waits for itself\n"
     "  0 (task main) waits at 4:26 for the promise 0.2 (q, made at 2:24), which 0 owns\n"),
    ("a task joins itself, and waits", "--short", ITSELF,
     "deadlock: 1 task waits for itself\n  0 (task main) waits at 1:24 for the task 0\n"),
    ("under the strict rule it fails", "--strict --short", ITSELF, "failed: 0 (task main) at 1:24: order 0\n"),
    ("forks in a loop, tabs and carriage returns", "--short", IN_A_LOOP,
     "failed: 0.2 (task f(1), forked at 4:3) at 8:25: kind, the task 0.2 where a promise is wanted\n"),
    ("a promise that is handed three times, and a fault behind `or`", "--short",
     "task main() { let p = new; fork a(own p); get p or 1 / 0; } task a(p) { fork b(own p); } "
     "task b(p) { fork c(own p); } task c(p) { }",
     "failed: 0 (task main) at 1:43: arith, division by zero\n"
     "owed: the promise 0.1 (p, made at 1:23) was never set: "
     "0.2.1.1 (task c(0.1), forked at 1:102) owned it and ended at 1:131\n"),
    ("a fork that is refused makes nothing, and a task waits for what it owns", "--short",
     "task main() { let p = new; let q = new; fork f(own p, own q); fork f(own p, own q); } "
     "task f(a, b) { get a; }",
     "deadlock: 1 task waits for itself\n"
     "  0.3 (task f(0.1, 0.2), forked at 1:41) waits at 1:102 for the promise 0.1 (p, made at 1:23), which 0.3 owns\n"
     "failed: 0 (task main) at 1:63: owner 0.1 (p, made at 1:23), handed to 0.3 at 1:41\n"),
    ("an `if` with an `else` in a loop, a loop in it, and a promise that is owed", "--short",
     "task main() { let i = 0; while i < 2 { if i { while 1 { let x = new; set x = 1 / 0; } } "
     "else { fork g(); } i = i + 1; } } task g() { return 1; }",
     "failed: 0 (task main) at 1:70: arith, division by zero\n"
     "  owed: the promise 0.2 (x, made at 1:65) was never set: 0 (task main) owned it and failed at 1:70\n"),
    ("a condition that is no number", "--short", "task main() { let p = new; while p { } }",
     "failed: 0 (task main) at 1:28: kind, the promise 0.1 where a number is wanted\n"
     "  owed: the promise 0.1 (p, made at 1:23) was never set: 0 (task main) owned it and failed at 1:28\n"),
    ("a block that isn't taken", "", "task main() { let p = new; if 0 { while 1 { print 1; } } }",
     "owed: the promise 0.1 (p, made at 1:23) was never set: 0 (task main) owned it and ended at 1:58\n"),
    ("a set without the right to it before the cycle that waits for it", "--short",
     "task main() {\n  let p = new;\n  fork f(own p);\n  fork g(p);\n  set p = 1;\n}\n"
     "task f(q) { get q; }\ntask g(q) { get q; }\n",
     "failed: 0 (task main) at 5:3: owner 0.1 (p, made at 2:11), handed to 0.2 at 3:3\n"
     "deadlock: 1 task waits for itself\n"
     "  0.2 (task f(0.1), forked at 3:3) waits at 7:13 for the promise 0.1 (p, made at 2:11), which 0.2 owns\n"
     "  behind a deadlock: 0.3 (task g(0.1), forked at 4:3) waits at 8:13 for the promise 0.1 (p, made at 2:11), "
     "which 0.2 owns\n"),
    ("echoes below the failure with which they began, and what failed tasks owed", "--short",
     "task main() {\n  let t = fork bad();\n  let u = fork mid(t);\n  fork last(u);\n}\n"
     "task bad() { let p = new; let x = 1 / 0; }\ntask mid(t) { let p = new; join t; }\n"
     "task last(u) { join u; }\n",
     "failed: 0.1 (task bad, forked at 2:11) at 6:27: arith, division by zero\n"
     "  owed: the promise 0.1.1 (p, made at 6:22) was never set: 0.1 (task bad, forked at 2:11) owned it and "
     "failed at 6:27\n"
     "  failed: 0.2 (task mid(0.1), forked at 3:11) at 7:28: broken 0.1 (made at 2:11), at first from 0.1, "
     "which failed at 6:27\n"
     "  owed: the promise 0.2.1 (p, made at 7:23) was never set: 0.2 (task mid(0.1), forked at 3:11) owned it and "
     "failed at 7:28\n"
     "  failed: 0.3 (task last(0.2), forked at 4:3) at 8:16: broken 0.2 (made at 3:11), at first from 0.1, "
     "which failed at 6:27\n"),
    ("many that are alike: waits behind a task that waits for itself", "--short", MANY,
     "deadlock: 1 task waits for itself\n"
     "  0 (task main) waits at 5:3 for the promise 0.1 (p, made at 2:11), which 0 owns\n"
     "  behind a deadlock: 0.2, 0.3 and 28 more of task client (forked at 4:18) wait at 7:18 for the promise 0.1 "
     "(p, made at 2:11), which 0 owns\n"),
    ("where promises went at one statement each, of failures that are alike", "--short", WENT_ALIKE,
     "failed: 0.2 and 0.5 of task f (forked at 3:30) at 5:28: owner (p, made at 3:25), each handed on at 5:13\n"
     "failed: 0.3 and 0.6 of task g (forked at 3:45) at 6:13: owner (p, made at 3:25), each set by another at 7:13\n"),
    ("promises that several others own, each of whom waits for its own", "--short",
     "task main() {\n  let i = 0;\n  while i < 2 {\n    let p = new;\n    fork keep(own p);\n    fork poke(p);\n"
     "    i = i + 1;\n  }\n}\ntask keep(p) { get p; }\ntask poke(p) { set p = 1; }\n",
     "failed: 0.3 and 0.6 of task poke (forked at 6:5) at 11:16: owner (p, made at 4:13), "
     "each owned by another where it stopped\n"
     "deadlock: 2 times 1 task waits for itself\n"
     "  0.2 and 0.5 of task keep (forked at 5:5) wait at 10:16 for promises (p, made at 4:13)\n"),
    ("many failures, their debts, and cycles that are alike", "--short", CROWD,
     "deadlock: 2 times 1 task waits for itself\n"
     "  0.4 and 0.5 of task loner wait at 8:29 for promises (p, made at 8:24)\n"
     "failed: 0.1, 0.2 and 1 more of task client (forked at 3:17) at 7:31: arith, division by zero\n"
     "  owed: the promises 0.1.1, 0.2.1 and 1 more (p, made at 7:26) were never set: "
     "task client owned each and failed at 7:31\n"),
    ("the same, each told by itself", "--all --short", CROWD,
     "deadlock: 1 task waits for itself\n"
     "  0.4 (task loner, forked at 4:3) waits at 8:29 for the promise 0.4.1 (p, made at 8:24), which 0.4 owns\n"
     "deadlock: 1 task waits for itself\n"
     "  0.5 (task loner, forked at 5:3) waits at 8:29 for the promise 0.5.1 (p, made at 8:24), which 0.5 owns\n"
     "failed: 0.1 (task client(0), forked at 3:17) at 7:31: arith, division by zero\n"
     "  owed: the promise 0.1.1 (p, made at 7:26) was never set: 0.1 (task client(0), forked at 3:17) owned it and "
     "failed at 7:31\n"
     "failed: 0.2 (task client(1), forked at 3:17) at 7:31: arith, division by zero\n"
     "  owed: the promise 0.2.1 (p, made at 7:26) was never set: 0.2 (task client(1), forked at 3:17) owned it and "
     "failed at 7:31\n"
     "failed: 0.3 (task client(2), forked at 3:17) at 7:31: arith, division by zero\n"
     "  owed: the promise 0.3.1 (p, made at 7:26) was never set: 0.3 (task client(2), forked at 3:17) owned it and "
     "failed at 7:31\n"),
    ("promises of one task that one statement made", "--short",
     "task main() {\n  let i = 0;\n  while i < 3 { let p = new; i = i + 1; }\n}\n",
     "owed: the promises 0.1, 0.2 and 1 more (p, made at 3:25) were never set: 0 (task main) owned them and "
     "ended at 4:1\n"),
    ("promises that were set at one statement, and set once more", "--short",
     "task main() {\n  fork f();\n  fork f();\n}\ntask f() {\n  let p = new;\n  set p = 1;\n  set p = 2;\n}\n",
     "failed: 0.1 and 0.2 of task f at 8:3: owner (p, made at 6:11), set at 7:3\n"),
    ("promises that went to two tasks, which owed them", "--short",
     "task main() {\n  fork f();\n  fork f();\n}\ntask f() {\n  let p = new;\n  fork g(own p);\n  set p = 2;\n}\n"
     "task g(p) { }\n",
     "failed: 0.1 and 0.2 of task f at 8:3: owner (p, made at 6:11), each handed on at 7:3\n"
     "owed: the promises 0.1.1 and 0.2.1 (p, made at 6:11) were never set: task g owned each and ended at 10:13\n"),
    ("source lines below a cycle's members, and none below a wait behind it", "", DEADLOCK,
     "deadlock: 2 tasks wait for each other\n"
     "  0.3 (task a(0.1, 0.2), forked at 4:3) waits at 9:10 for the promise 0.2 (q, made at 3:11), which 0.4 owns\n"
     "\tlet z = get other; set mine = z;\n"
     "\t        ^\n"
     "  0.4 (task a(0.2, 0.1), forked at 5:3) waits at 9:10 for the promise 0.1 (p, made at 2:11), which 0.3 owns\n"
     "\tlet z = get other; set mine = z;\n"
     "\t        ^\n"
     "  behind a deadlock: 0 (task main) waits at 6:11 for the promise 0.1 (p, made at 2:11), which 0.3 owns\n"),
    ("a source line below a failure, with a tab and a carriage return, and none below its echo", "",
     "task main() {\r\n\tlet t = fork f();\r\n\tjoin t;\r\n}\r\ntask f() {\r\n\tlet x = 1 / 0;\r\n}\r\n",
     "failed: 0.1 (task f, forked at 2:10) at 6:2: arith, division by zero\n"
     "\tlet x = 1 / 0;\r\n"
     "\t^\n"
     "  failed: 0 (task main) at 3:2: broken 0.1 (made at 2:10), at first from 0.1, which failed at 6:2\n"),
    ("one source line below failures that are alike", "", "task main() {\n  fork f();\n  fork f();\n}\n"
     "task f() { return 1 / 0; }\n",
     "failed: 0.1 and 0.2 of task f at 5:12: arith, division by zero\n"
     "task f() { return 1 / 0; }\n"
     "           ^\n"),
    ("a source line below each failure", "--all", "task main() {\n  fork f();\n  fork f();\n}\n"
     "task f() { return 1 / 0; }\n",
     "failed: 0.1 (task f, forked at 2:3) at 5:12: arith, division by zero\n"
     "task f() { return 1 / 0; }\n"
     "           ^\n"
     "failed: 0.2 (task f, forked at 3:3) at 5:12: arith, division by zero\n"
     "task f() { return 1 / 0; }\n"
     "           ^\n"),
    ("the flags with each other", "--all --short --strict", ANCESTOR,
     "failed: 0.1 (task kid(0), forked at 1:15) at 2:23: order 0\n"),
    ("a graph, short", "--short --dot", ITSELF,
     'digraph tasks {\n  node [shape=box];\n  "0" [label="0\\nmain\\n1:24"];\n'
     '  "0" -> "0" [color=red, penwidth=3];\n}\n'),
    ("the graph of the page", "--dot",
     "task main() { let p = new; let q = new; fork f(own p); fork g(p); get q; }\n"
     "task f(p) { return 1 / 0; }\ntask g(p) { get p; }\n",
     'digraph tasks {\n  node [shape=box];\n  "0" [label="0\\nmain\\n1:67"];\n'
     '  "0" -> "0.2" [color=red, penwidth=3];\n  "0.2" [shape=ellipse];\n  "0.2" -> "0" [style=dotted];\n'
     '  "0.3" [label="0.3\\nf\\n2:13\\narith", style=filled, fillcolor=salmon];\n  "0" -> "0.3";\n'
     '  "0.1" [shape=ellipse, style=filled, fillcolor=khaki];\n  "0.1" -> "0.3" [style=dotted];\n'
     '  "0.4" [label="0.4\\ng\\n3:13\\nbroken 0.1", style=filled, fillcolor=salmon];\n  "0" -> "0.4";\n'
     '  "0.4" -> "0.3" [style=dotted, color=salmon];\n}\n'),
    ("nothing is wrong, as an object", "--json", "task main() { fork f(); } task f() { }",
     '{"kind":"fine","tasks":2}\n'),
    ("too few cells, as an object", "--all --json --cells 1", OWED, '{"kind":"full","cells":1,"most":1,"at":"2:11"}\n'),
    ("a cycle and a wait behind it, as objects", "--json", DEADLOCK,
     '{"kind":"deadlock","level":0,"waits":['
     '{"task":{"name":"0.3","task":"a","began":["0.1","0.2"],"forked":"4:3","stopped":"waits","at":"9:10"},'
     '"cell":{"name":"0.2","sort":"promise","made":"3:11","variable":"q"},"owner":"0.4"},'
     '{"task":{"name":"0.4","task":"a","began":["0.2","0.1"],"forked":"5:3","stopped":"waits","at":"9:10"},'
     '"cell":{"name":"0.1","sort":"promise","made":"2:11","variable":"p"},"owner":"0.3"}]}\n'
     '{"kind":"behind","level":1,"wait":'
     '{"task":{"name":"0","task":"main","began":[],"forked":null,"stopped":"waits","at":"6:11"},'
     '"cell":{"name":"0.1","sort":"promise","made":"2:11","variable":"p"},"owner":"0.3"}}\n'),
    ("failures, an echo and a promise that is owed, as objects", "--all --json --short",
     "task main() {\n  let t = fork bad();\n  join t;\n}\ntask bad() { let p = new; let x = 1 / 0; }\n",
     '{"kind":"failed","level":0,'
     '"task":{"name":"0.1","task":"bad","began":[],"forked":"2:11","stopped":"failed","at":"5:27"},'
     '"cause":"arith","reason":"division by zero","cell":null,"went":null}\n'
     '{"kind":"owed","level":1,"cell":{"name":"0.1.1","sort":"promise","made":"5:22","variable":"p"},'
     '"task":{"name":"0.1","task":"bad","began":[],"forked":"2:11","stopped":"failed","at":"5:27"}}\n'
     '{"kind":"echo","level":1,'
     '"task":{"name":"0","task":"main","began":[],"forked":null,"stopped":"failed","at":"3:3"},'
     '"cell":{"name":"0.1","sort":"task","made":"2:11","variable":null},'
     '"origin":{"name":"0.1","task":"bad","began":[],"forked":"2:11","stopped":"failed","at":"5:27"}}\n'),
    ("where promises went, and arguments, as objects", "--json", WENT,
     '{"kind":"failed","level":0,'
     '"task":{"name":"0","task":"main","began":[],"forked":null,"stopped":"failed","at":"8:3"},'
     '"cause":"owner","reason":null,"cell":{"name":"0.1","sort":"promise","made":"2:11","variable":"p"},'
     '"went":{"kind":"handed here","to":"0.3","at":"4:3"}}\n'
     '{"kind":"owed","level":1,"cell":{"name":"0.2","sort":"promise","made":"3:11","variable":"q"},'
     '"task":{"name":"0","task":"main","began":[],"forked":null,"stopped":"failed","at":"8:3"}}\n'
     '{"kind":"failed","level":0,'
     '"task":{"name":"0.3","task":"f","began":["0.1",-7],"forked":"4:3","stopped":"failed","at":"10:27"},'
     '"cause":"owner","reason":null,"cell":{"name":"0.1","sort":"promise","made":"2:11","variable":"p"},'
     '"went":{"kind":"set here","at":"10:16"}}\n'
     '{"kind":"failed","level":0,'
     '"task":{"name":"0.4","task":"g","began":["0.1"],"forked":"5:3","stopped":"failed","at":"11:13"},'
     '"cause":"owner","reason":null,"cell":{"name":"0.1","sort":"promise","made":"2:11","variable":"p"},'
     '"went":{"kind":"set","by":"0.3","at":"10:16"}}\n'
     '{"kind":"failed","level":0,'
     '"task":{"name":"0.5","task":"g","began":["0.2"],"forked":"6:3","stopped":"failed","at":"11:13"},'
     '"cause":"owner","reason":null,"cell":{"name":"0.2","sort":"promise","made":"3:11","variable":"q"},'
     '"went":{"kind":"owned","by":"0"}}\n'
     '{"kind":"failed","level":0,'
     '"task":{"name":"0.6","task":"h","began":[],"forked":"7:3","stopped":"failed","at":"12:25"},'
     '"cause":"owner","reason":null,"cell":{"name":"0.6.1","sort":"promise","made":"12:20","variable":"r"},'
     '"went":{"kind":"handed twice"}}\n'
     '{"kind":"owed","level":1,"cell":{"name":"0.6.1","sort":"promise","made":"12:20","variable":"r"},'
     '"task":{"name":"0.6","task":"h","began":[],"forked":"7:3","stopped":"failed","at":"12:25"}}\n'),
    ("a promise set twice by one task", "--short", "task main() {\n  let p = new;\n  set p = 1;\n  set p = 2;\n}\n",
     "failed: 0 (task main) at 4:3: owner 0.1 (p, made at 2:11), set at 3:3\n"),
    ("a promise that another task set", "--short", "task main() {\n  let p = new;\n  fork f(own p);\n  fork g(p);\n}\n"
     "task f(p) {\n  set p = 1;\n}\ntask g(p) { let x = get p; set p = 2; }\n",
     "failed: 0.3 (task g(0.1), forked at 4:3) at 9:28: owner 0.1 (p, made at 2:11), which 0.2 set at 7:3\n"),
    ("a promise that another task owned where it stopped", "--short", "task main() {\n  let p = new;\n  fork g(p);\n}\n"
     "task g(p) { set p = 2; }\n",
     "failed: 0.2 (task g(0.1), forked at 3:3) at 5:13: owner 0.1 (p, made at 2:11), which 0 owned where it stopped\n"
     "owed: the promise 0.1 (p, made at 2:11) was never set: 0 (task main) owned it and ended at 4:1\n"),
    ("arguments of forty bytes, and longer ones, of which the beginning is told", "--short",
     "task main() {\n  fork f(1000000000000, 2000000000000, 3000000000);\n"
     "  fork f(1000000000000, 2000000000000, -300000000000);\n}\n"
     "task f(a, b, c) { if c < 0 { let x = 1 / 0; } else { let y = 2 / 0; } }\n",
     "failed: 0.1 (task f(1000000000000, 2000000000000, 3000000000), forked at 2:3) at 5:54: arith, division by zero\n"
     "failed: 0.2 (task f(1000000000000, 2000000000000, -3000000..), forked at 3:3) at 5:30: arith, division by zero\n"),
    ("a sum past 64 bits", "--short", "task main() { let x = 9223372036854775807; x = x + 1; }",
     "failed: 0 (task main) at 1:44: arith, overflow\n"),
    ("a rest whose quotient is past 64 bits", "--short",
     "task main() { let x = -9223372036854775807 - 1; print x % -1; }",
     "failed: 0 (task main) at 1:49: arith, overflow\n"),
    ("a rest by zero, behind a comparison that is false", "--short",
     "task main() { let x = 3; print x % (x < 3); }",
     "failed: 0 (task main) at 1:26: arith, division by zero\n"),
    ("a number is set", "--short", "task main() { let p = 5; set p = 1; }",
     "failed: 0 (task main) at 1:26: kind, 5 where a promise is wanted\n"),
    ("a task is set, behind a value that is there", "--short", "task main() { let p = me; set p = 1; }",
     "failed: 0 (task main) at 1:27: kind, the task 0 where a promise is wanted\n"),
    ("a promise is joined", "--short", "task main() {\n  let p = new;\n  join p;\n}",
     "failed: 0 (task main) at 3:3: kind, the promise 0.1 where a task is wanted\n"
     "  owed: the promise 0.1 (p, made at 2:11) was never set: 0 (task main) owned it and failed at 3:3\n"),
    ("a task is handed on, behind a promise", "--short",
     "task main() {\n  let p = new;\n  let t = fork f(0, 0);\n  fork f(own p, own t);\n}\ntask f(a, b) { }\n",
     "failed: 0 (task main) at 4:3: kind, the task 0.2 where a promise is wanted\n"
     "  owed: the promise 0.1 (p, made at 2:11) was never set: 0 (task main) owned it and failed at 4:3\n"),
    ("reasons that differ in failures that are alike", "--short",
     "task main() {\n  fork f(1);\n  fork f(2);\n}\ntask f(p) { get p; }\n",
     "failed: 0.1 and 0.2 of task f at 5:13: kind\n"),
    ("the same, each told by itself", "--short --all",
     "task main() {\n  fork f(1);\n  fork f(2);\n}\ntask f(p) { get p; }\n",
     "failed: 0.1 (task f(1), forked at 2:3) at 5:13: kind, 1 where a promise is wanted\n"
     "failed: 0.2 (task f(2), forked at 3:3) at 5:13: kind, 2 where a promise is wanted\n"),
    ("a promise that no `let` made", "--short", "task main() { let p = 0; p = new; }",
     "owed: the promise 0.1 (made at 1:30) was never set: 0 (task main) owned it and ended at 1:35\n"),
)

BRANCHES = ("task main() { let n = 0; while n < 2 { if n { print 1; } else { print 2; print 3; } n = n + 1; } "
            "return n; }")
LOOPS = ("task kid() { } task main() { let i = 0; while i < 2 { let j = 0; while j < 1 "
         "{ fork kid(); j = j + 1; } i = i + 1; } }")

# A script, how many statements may begin, and the column of the next one, which may not.
STANDS = (
    (BRANCHES, 3, 65),
    (BRANCHES, 4, 74),
    (BRANCHES, 5, 85),
    (BRANCHES, 6, 26),
    (BRANCHES, 8, 47),
    (BRANCHES, 11, 98),
    (LOOPS, 4, 80),
    (LOOPS, 5, 92),
    (LOOPS, 6, 66),
    (LOOPS, 7, 105),
    (LOOPS, 8, 41),
    (LOOPS, 11, 80),
    (LOOPS, 15, 41),
    ("task main() { if 0 { while 1 { print 1; } } print 2; }", 1, 45),
    ("task main() { print 1; while 1 { } }", 1, 24),
    ("task main() { print 1; while 1 { } }", 1000, 24),
)

# Faults in words: what a row shows, the words of the command line, a text, and what is told of it.
FAULTS = (
    ("a name is missing, below a tab", "", "task main() {\n\tlet = 1;\n}\n",
     "script fault P1 at 2:6\n\tlet = 1;\n\t    ^\n= stands here: a name is wanted\n"),
    ("a semicolon is missing in front of a keyword", "--short", "task main() {\n  let x = 10\n  return x;\n}\n",
     "script fault P1 at 3:3\n  return x;\n  ^\nreturn stands here: ; is missing after 2:12\n"),
    ("and in front of an assignment", "--all", "task main() {\n  let x = 1\n  x = 2;\n}\n",
     "script fault P1 at 3:3\n  x = 2;\n  ^\nx stands here: ; is missing after 2:11\n"),
    ("an operator or a semicolon", "", "task main() { print 1 2; }",
     "script fault P1 at 1:23\ntask main() { print 1 2; }\n                      ^\n"
     "2 stands here: an operator or ; is wanted\n"),
    ("a number behind new", "", "task main() { let p = new 5; }",
     "script fault P1 at 1:27\ntask main() { let p = new 5; }\n                          ^\n"
     "5 stands here: ; is wanted\n"),
    ("a sum with what a get gives", "", "task main() { let p = get me + 1; }",
     "script fault P1 at 1:30\ntask main() { let p = get me + 1; }\n                             ^\n"
     "+ stands here: ; or the keyword or is wanted\n"),
    ("a comparison of a comparison, in a head", "", "task main() { if 1 < 2 < 3 { } }",
     "script fault P1 at 1:24\ntask main() { if 1 < 2 < 3 { } }\n                       ^\n"
     "< stands here: an arithmetic operator or { is wanted\n"),
    ("the same in a parenthesis, of an argument", "", "task main() { fork f(1 < (2 == 3 > 4)); }",
     "script fault P1 at 1:34\ntask main() { fork f(1 < (2 == 3 > 4)); }\n                                 ^\n"
     "> stands here: an arithmetic operator or ) is wanted\n"),
    ("arguments without a comma", "", "task main() { fork f(1 < 2, (2) 3); }",
     "script fault P1 at 1:33\ntask main() { fork f(1 < 2, (2) 3); }\n                                ^\n"
     "3 stands here: an operator, a comma or ) is wanted\n"),
    ("no argument in front of a comma", "", "task main() { fork f(, 1); }",
     "script fault P1 at 1:22\ntask main() { fork f(, 1); }\n                     ^\n"
     ", stands here: an argument or ) is wanted\n"),
    ("a parameter that is no name", "", "task main(1) { }",
     "script fault P1 at 1:11\ntask main(1) { }\n          ^\n1 stands here: a name or ) is wanted\n"),
    ("parameters without a comma", "", "task f(a b) { }",
     "script fault P1 at 1:10\ntask f(a b) { }\n         ^\nb stands here: a comma or ) is wanted\n"),
    ("a number behind a task's head", "", "task main() 1 { }",
     "script fault P1 at 1:13\ntask main() 1 { }\n            ^\n1 stands here: { is wanted\n"),
    ("no statement, and no else, behind an if", "", "task main() { while 1 { if 1 { } ) } }",
     "script fault P1 at 1:34\ntask main() { while 1 { if 1 { } ) } }\n                                 ^\n"
     ") stands here: else, a statement or } is wanted\n"),
    ("no statement behind an else", "", "task main() { if 1 { } else { } ) }",
     "script fault P1 at 1:33\ntask main() { if 1 { } else { } ) }\n                                ^\n"
     ") stands here: a statement or } is wanted\n"),
    ("a brace too many", "", "task main() { } }",
     "script fault P1 at 1:17\ntask main() { } }\n                ^\n} stands here: a task or the end is wanted\n"),
    ("a block is open where a task begins", "", "task main() {\n  if 1 {\n    print 1;\n}\ntask f() { }\n",
     "script fault P1 at 5:1\ntask f() { }\n^\n"
     "task stands here: } is missing, for the block that begins at 1:13\n"),
    ("a block is open at the end, as a graph", "--dot", "task main() { while 1 { print 2; ",
     "script fault P1 at 1:34\ntask main() { while 1 { print 2; \n                                 ^\n"
     "the text ends here: } is missing, for the block that begins at 1:23\n"),
    ("a parenthesis is open, and a block begins", "", "task main() { if (1 < 2 { } }",
     "script fault P1 at 1:25\ntask main() { if (1 < 2 { } }\n                        ^\n"
     "{ stands here: ) is missing after 1:23\n"),
    ("no block behind else", "", "task main() { if 1 { } else if 2 { } }",
     "script fault P1 at 1:29\ntask main() { if 1 { } else if 2 { } }\n                            ^\n"
     "if stands here: { is missing after 1:27\n"),
    ("no parameters behind a task's name", "", "task main { }",
     "script fault P1 at 1:11\ntask main { }\n          ^\n{ stands here: ( is missing after 1:9\n"),
    ("no task", "", "print 1;",
     "script fault P1 at 1:1\nprint 1;\n^\nprint stands here: a task or the end is wanted\n"),
    ("an ask in an expression", "", "task main() { return fork main(); }",
     "script fault P1 at 1:22\ntask main() { return fork main(); }\n                     ^\n"
     "fork stands here: an expression is wanted\n"),
    ("a byte order mark", "", "\ufefftask main() { }",
     "script fault L1 at 1:1\n\ufefftask main() { }\n^\na byte order mark stands here: a script has none\n"),
    ("a byte without a sign of its own", "", "task main() { \u00e9 }",
     "script fault L1 at 1:15\ntask main() { \u00e9 }\n              ^\nthe byte 195 stands here: no token begins with it\n"),
    ("a task that isn't declared", "", "task main() { fork f(); }",
     "script fault P2 at 1:20\ntask main() { fork f(); }\n                   ^\nno task f is declared\n"),
    ("a variable that isn't declared", "", "task main() { print f; }",
     "script fault P2 at 1:21\ntask main() { print f; }\n                    ^\nno variable f is declared above\n"),
    ("a task declared twice", "", "task main() { }\ntask main() { }",
     "script fault P3 at 2:6\ntask main() { }\n     ^\na task main is declared above\n"),
    ("no main", "", "task f() { }", "script fault P5 at 1:1\ntask f() { }\n^\nno task main is declared\n"),
    ("a fault as an object, whose quote stands behind a backslash", "--json", "task main() { print \"; }",
     '{"kind":"fault","fault":"L1","at":"1:21","words":"\\\" stands here: no token begins with it"}\n'),
)
