# Prints a line that is another one as soon as a source, a program that may be run or its record is another: of each its
# name, size, place on the disk and times, of which the last is one that no command can set back. It is called at the top
# of a clone. Without GNU find the line is that of nothing, which is never kept.
LC_ALL=C find crates crates.txt HANDLES dist crates/feast/out/feast crates/feast/out/PROVED -regex 'crates/[^/]*/out' -prune -o \
  ! -type d -printf '%p %s %D %i %T@ %C@\n' 2>/dev/null | sha256sum
