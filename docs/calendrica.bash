# Completion of the arguments of calendrica for bash: source this file, or install it as
# /usr/share/bash-completion/completions/calendrica. They are those of docs/FORMAT.md, "Arguments and statuses".

# Sets COMPREPLY to those words of a list, given in one line, that begin with what stands.
_calendrica_offer() {
    mapfile -t COMPREPLY < <(compgen -W "$1" -- "$2")
}

# Whether a command is a script, as that of a checkout, which knows words of its own.
_calendrica_is_script() {
    local file start
    file=$(type -P -- "$1") && IFS= read -rN 2 start <"$file"
    [[ ${start-} == '#!' ]]
}

_calendrica() {
    local typed=$2 place=0 has_jobs="" is_number="" is_script="" command="" commands="convert check almanac sample upgrade east" word index
    _calendrica_is_script "$1" && is_script=1
    # Bash takes `--jobs=8` as three words: `--jobs`, `=`, `8`.
    [[ $typed == = ]] && typed=""
    for ((index = 1; index < COMP_CWORD; index++)); do
        word=${COMP_WORDS[index]}
        if [[ $word == --jobs ]]; then
            has_jobs=1 is_number=1
        elif [[ $word == = ]]; then
            :
        elif [[ $is_number ]]; then
            is_number=""
        elif [[ $is_script && $index == 1 && $word == try ]]; then
            # What follows is a command of the program.
            is_script=""
        else
            ((place++))
            command=${command:-$word}
        fi
    done
    # The script's own words are the first.
    ((COMP_CWORD == 1)) || is_script=""
    if [[ $is_number ]]; then
        _calendrica_offer "$(echo {1..64})" "$typed"
    elif [[ $typed == -* ]]; then
        COMPREPLY=()
        [[ $has_jobs ]] || _calendrica_offer "--jobs${is_script:+ --help --version}" "$typed"
    elif ((place == 0)); then
        _calendrica_offer "$commands${is_script:+ build try install help}" "$typed"
    elif ((place == 1)) && [[ $command == almanac || $command == east ]]; then
        _calendrica_offer "$(echo {1703..2147})" "$typed"
    else
        COMPREPLY=()
    fi
} 2>/dev/null

complete -F _calendrica calendrica
