"""The gains of runs, over their pages: the command darbexum-gains.

`command` reads the words of the command line. `desk` does what is done with several pages at one time, by the steps of
`plan` and the requests of `page`. `levels` has the texts for gains, and `texts` the errors and reports.
"""
