#!/bin/sh
# Plain text on standard input to one sentence a line on standard output: a sentence ends with . ? or ! before
# a blank or the end; words are in lower case, and each sign is a word of its own, but for those inside a word
# or a number.
export LC_ALL=C.UTF-8
{ tr '\r\n\t' '   ' && echo; } \
    | sed -E 's/([.?!]+["”’)]*) +/\1\n/g' \
    | sed -E -e 's/.*/\L&/' \
        -e ':inside' -e "s/([[:alnum:]])(['’-])([[:alnum:]])/\1\x01\2\x01\3/" -e 't inside' \
        -e ':number' -e 's/([0-9])([.,])([0-9])/\1\x01\2\x01\3/' -e 't number' \
        -e 's/([^[:alnum:][:space:]\x01])/ \1 /g' -e 's/\x01 (.) \x01/\1/g' \
        -e 's/ +/ /g' -e 's/^ //' -e 's/ $//' -e '/^$/d'
