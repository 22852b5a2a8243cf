"""A second reader of elements, worlds and reports, and a judge of reports, by the pages of docs/.

docs/recheck.md says what it is, what it shares with the program (nothing), and in which order to read it.
"""
