"""An independent checker of certificates, in the order of the pages that it is written from.

docs/FORMATS.md: `grid` has numbers and intervals, `script` tokens and grammar, `hints` which hints
are checked, `certificate` the bytes and `judge` what is accepted. docs/RULES.md: `rules`. Nothing
here comes from another tool or from the program, and nothing but the standard library is used.
"""
