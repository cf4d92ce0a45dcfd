# Completion of the words of hrthood for bash, where it is read with `.`: verbs first, then for each operand the files of its kind, or
# the counts of a sample. The verbs and their operands are those of the usage line; tools/report/test_tools.py compares both.
_hrthood_usage='check D | analyse D | format D | generate D | replay A R | verify D R | sample N | background D | accepts D R T | search D | scale D | explain D | arrange D'

# Files with this ending, and folders, that go on from a word.
_hrthood_files() {
    compgen -f -X "!*.$1" -- "$2"
    compgen -d -- "$2"
}

_hrthood() {
    local word=${COMP_WORDS[COMP_CWORD]} command verb operands
    COMPREPLY=()
    while read -r -d '|' command; do
        read -r verb operands <<<"$command"
        if [ "$COMP_CWORD" -eq 1 ]; then
            case $verb in "$word"*) COMPREPLY+=("$verb") ;; esac
        elif [ "$verb" = "${COMP_WORDS[1]}" ]; then
            read -r -a operands <<<"$operands"
            case ${operands[COMP_CWORD - 2]-} in
                D) mapfile -t COMPREPLY < <(_hrthood_files design "$word") ;;
                A) mapfile -t COMPREPLY < <(_hrthood_files ada "$word") ;;
                R) mapfile -t COMPREPLY < <(_hrthood_files arrivals "$word") ;;
                T) mapfile -t COMPREPLY < <(_hrthood_files trace "$word") ;;
                N) mapfile -t COMPREPLY < <(compgen -W "$(seq 1 30)" -- "$word") ;;
            esac
        fi
    done <<<"$_hrthood_usage |"
}
complete -o filenames -F _hrthood hrthood
