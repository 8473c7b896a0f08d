"""What several scripts need of a run of the program.

`checks` has what a test expects, and how it says what differs. `ports` has the ports of 127.0.0.1 and their listeners,
and `senders` the packets that are sent and their pace. `runs` starts the program and ends it in order. `pages` has a
client of a run's page, and a browser. `count_lines` reads the lines of --stats, and `number_names` has the names of
each number. `wrong_program` makes the program wrong.
"""
