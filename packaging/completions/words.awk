# The words that a shell offers, out of a program's help: after an option that has possible values these, else its commands and options.
#     PROGRAM --help | awk -v before=WORD -f words.awk
/^[A-Z]/ { listed = /^(Commands|Options):/ }
!listed { next }
/^  [a-z]/ { names = names " " $1 }
match($0, /--[a-z]+/) { name = substr($0, RSTART, RLENGTH); names = names " " name; takes[name] = /--[a-z]+ </ }
match($0, /possible values: [^]]*/) { values[name] = substr($0, RSTART + 17, RLENGTH - 17) }
END { gsub(",", "", values[before]); print takes[before] ? values[before] : names }
