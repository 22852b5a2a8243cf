"""Releases: what has to hold of a commit before it gets a version's tag, and the folder that users get.

  main     the order of things: what is asked, the folder, the tag
  version  the number of the version, and the pages that name it
  record   the note that everything passed on a commit, with the program that was built and what was left out
  left_out what a run of the tests may leave out
  folder   what the released folder has
  archive  the same as one file
  tree     the repository, as git knows it
  dist     the folder dist/, which has the program that the gate has made
"""
