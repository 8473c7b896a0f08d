"""A configuration from SDP files, SDP files of a studio's output, and what is announced: the command darbexum-sdp.

`command` reads the words of the command line and the files. `reader` makes a `Stream` of `model` from each group of
sections, `sections` finds what one section says, and `clocks` which PTP clocks differ. `writer` writes the
configuration. `output` writes the SDP file of each copy of a configuration's output, `groups` those of all copies, and
`order` has the order of channels. `rules` has the limits and constants of all, and `texts` what is done with any text.

Announcements are by SAP. `sap` has the packet, `summary` what is shown of a text, and `sessions` the rules for what is
known and when it is announced. `networks` makes the sockets. `listener` hears sessions, `listing` prints them, and
`saving` writes their files. `announcement` is a text as it is announced, and `announcer` sends it again and again.
"""
