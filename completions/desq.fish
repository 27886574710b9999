# Completion of the words of desq in fish.

# What stands before the cursor: tells, a line each, the options that were given, but not one whose value
# comes now, and `expression` or `file` where a word that is no option may come and is that.
function __desq_before
    set -l given
    set -l value_of
    set -l named no
    set -l bare 0
    for word in (commandline -opc)[2..]
        if test -n "$value_of"
            set -a given $value_of
            set value_of
        else if test $named = yes
            set bare (math $bare + 1)
        else
            switch $word
                case --
                    set named yes
                case --weighted --stats --generalize --merge --proof
                    set -a given $word
                case '--*=*'
                    set -a given (string split -m 1 = -- $word)[1]
                case '--*'
                    set value_of $word
                case '*'
                    set bare (math $bare + 1)
            end
        end
    end
    string join \n -- $given
    if test -z "$value_of"
        if contains -- --merge $given
            echo file
        else if contains -- --max-gap $given
            test $bare = 0; and echo file
        else
            test $bare = 0; and echo expression
            test $bare = 1; and not contains -- --generated $given; and echo file
        end
    end
end

# Whether this stands before the cursor.
function __desq_has
    contains -- $argv[1] (__desq_before)
end

complete -c desq -f
complete -c desq -n '__desq_has file' -F
complete -c desq -n 'not __desq_has --support' -l support -x -d 'least support of a pattern'
complete -c desq -n 'not __desq_has --hierarchy' -l hierarchy -r -F -d 'hierarchy of the items'
complete -c desq -n 'not __desq_has --weighted' -l weighted -d 'the first field of a line is its weight'
complete -c desq -n 'not __desq_has --engine' -l engine -x -d 'how patterns are found' \
    -a "dfs\t'grow prefixes' pivot\t'grow prefixes in parts' count\t'count all candidates' cand\t'count sets of candidates'"
complete -c desq -n 'not __desq_has --workers' -l workers -x -d 'how many workers share the work, 1 to 64'
complete -c desq -n 'not __desq_has --simulate' -l simulate -x \
    -d 'search on one thread, in the order of a seed'
complete -c desq -n 'not __desq_has --stats' -l stats -d 'tell how much work there was'
complete -c desq -n 'not __desq_has --max-gap' -l max-gap -x \
    -d 'mine without an expression, most items between neighbours'
complete -c desq -n 'not __desq_has --min-length' -l min-length -x -d 'least items of a pattern'
complete -c desq -n 'not __desq_has --max-length' -l max-length -x -d 'most items of a pattern'
complete -c desq -n 'not __desq_has --generalize' -l generalize -d 'items may be what stands above them'
complete -c desq -n 'not __desq_has --generated' -l generated -x \
    -d 'mine so many made sequences, with no file'
complete -c desq -n 'not __desq_has --split' -l split -x -d 'mine one share of the pivots, as 1/4'
complete -c desq -n 'not __desq_has --merge' -l merge -d 'merge outputs of other runs, and mine nothing'
complete -c desq -n 'not __desq_has --proof' -l proof -d 'write a proof of the answer in its place'
complete -c desq -n 'not __desq_has --check' -l check -r -F -d 'judge a proof, and mine nothing'
