"""A live run on sockets of its own, in groups that it joins: the command darbexum-join.

`command` reads the words and the configuration, whose paths are in `studio`. `sockets` makes a socket for each,
`groups` watches whether their groups are joined, and `parent` runs the program on them. `linux` has what Python lacks
of the system's network interfaces, and `faults` the ends before a run.
"""
