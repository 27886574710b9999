#!/bin/sh
# A list of kinds on standard input, each line 'KIND: word word ..', to a hierarchy on standard output: each
# line a word and the kind above it.
awk -F': *' 'NF == 2 { count = split($2, words, " "); for (i = 1; i <= count; i++) print words[i], $1 }'
