# Completion of the words of desq in bash.

# The files whose names begin with the word.
_desq_files() {
    compopt -o filenames 2> /dev/null
    mapfile -t COMPREPLY < <(compgen -f -- "$1")
}

# Answers by COMPREPLY.
_desq() {
    local with_value=" --support --hierarchy --engine --workers --simulate "
    with_value+="--max-gap --min-length --max-length --generated --split --check "
    local alone=" --weighted --stats --generalize --merge --proof "
    local given=" " value_of="" named=0 bare=0 word i
    # What stands before the cursor: the options that were given, the one whose value comes now, and how many
    # words are no options. Bash may cut --option=value into three words.
    for ((i = 1; i < COMP_CWORD; i++)); do
        word=${COMP_WORDS[i]}
        if [[ -n $value_of ]]; then
            [[ $word == "=" ]] || value_of=""
        elif [[ $named == 0 && $word == -- ]]; then
            named=1
        elif [[ $named == 0 && $word == --* ]]; then
            given+="${word%%=*} "
            [[ $with_value != *" $word "* ]] || value_of=$word
        else
            bare=$((bare + 1))
        fi
    done
    word=${COMP_WORDS[COMP_CWORD]}
    COMPREPLY=()
    if [[ -n $value_of ]]; then
        [[ $word != "=" ]] || word=""
    elif [[ $named == 0 && $word == --*=* ]]; then
        value_of=${word%%=*}
        word=${word#*=}
    fi
    case $value_of in
        --engine) mapfile -t COMPREPLY < <(compgen -W "dfs pivot count cand" -- "$word") ;;
        --hierarchy | --check) _desq_files "$word" ;;
        "")
            if [[ $named == 0 && $word == -* ]]; then
                local left=() option
                for option in $with_value $alone; do
                    [[ $given == *" $option "* ]] || left+=("$option")
                done
                mapfile -t COMPREPLY < <(compgen -W "${left[*]}" -- "$word")
            else
                # The sequence file stands behind the expression, or with --max-gap alone; with --generated
                # there is none, and with --merge all are files.
                local file_at=1
                [[ $given != *" --max-gap "* ]] || file_at=0
                [[ $given != *" --generated "* ]] || file_at=none
                [[ $given != *" --merge "* ]] || file_at=$bare
                [[ $bare != "$file_at" ]] || _desq_files "$word"
            fi
            ;;
    esac
}

complete -F _desq desq
