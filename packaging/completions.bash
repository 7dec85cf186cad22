# Completion of upsc, upsrw and upscmd in bash: UPSes, variables, values and commands are asked of the server that the words
# name, or of this machine's. What a server says is never expanded by the shell. Of upsmon and nutroom, options and files.

# Only an answer that comes at once is taken.
_mulgefa_ask() {
    timeout 2 "$@" 2> /dev/null < /dev/null
}

# _mulgefa_upses WORD: the UPSes of the host that the word names, or of this machine.
_mulgefa_upses() {
    local host=${1#*@} ups
    case $1 in
        *@) ;;
        *@*) _mulgefa_ask upsc -l "$host" | while read -r ups; do echo "$ups@$host"; done ;;
        *) _mulgefa_ask upsc -l ;;
    esac
}

# _mulgefa_rows [UPS]: what upsrw shows of this UPS, or of all of this machine where none is named yet.
_mulgefa_rows() {
    local ups
    if [[ -n $1 ]]; then
        _mulgefa_ask upsrw "$1"
    else
        _mulgefa_ask upsc -l | while read -r ups; do _mulgefa_ask upsrw "$ups"; done
    fi
}

# _mulgefa_settings [VAR]: out of such rows, the variables, or VAR with each value that it takes.
_mulgefa_settings() {
    local line variable=
    while read -r line; do
        case $line in
            \[*\])
                variable=${line:1:-1}
                [[ -n $1 ]] || echo "$variable="
                ;;
            "Option: "*) [[ $variable != "$1" ]] || echo "$1=${line#Option: }" ;;
        esac
    done
}

# _mulgefa_choices PROGRAM: what the word at the cursor may be, a line each.
_mulgefa_choices() {
    case $1:$option:$current in
        upsc::-*) printf '%s\n' -j -l -L -c -h --help -V --version ;;
        upsrw::-*) printf '%s\n' -s -w -u -p -h --help -V --version ;;
        upscmd::-*) printf '%s\n' -l -w -u -p -h --help -V --version ;;
        upsmon::-*) printf '%s\n' --conf -q --check --delay --fsd -K -h --help -V --version ;;
        nutroom::-*) printf '%s\n' -n -s --svg --steps --run --nutsim -h --help -V --version ;;
        nutroom:* | upsmon:*) ;;
        upsrw:-s:*=*) _mulgefa_rows "${named[1]-}" | _mulgefa_settings "${current%%=*}" ;;
        upsrw:-s:*) _mulgefa_rows "${named[1]-}" | _mulgefa_settings "" ;;
        *:-?:*) ;;
        *)
            case $1:${#named[@]}:$flags in
                upsc:1:*" -l "* | upsc:1:*" -L "*) compgen -A hostname -- "$current" ;;
                *:1:*) _mulgefa_upses "$current" ;;
                upsc:2:*" -c "* | upsc:2:*" -j "* | upscmd:2:*" -l "*) ;;
                upsc:2:*) _mulgefa_ask upsc "${named[1]}" | sed 's/: .*//' ;;
                upscmd:2:*) _mulgefa_ask upscmd -l "${named[1]}" | sed 's/ - .*//' ;;
            esac
            ;;
    esac
}

# _mulgefa_complete PROGRAM LETTERS: the words in front of the cursor are options with what those of these letters take, and
# names. bash cuts the word at the cursor at some bytes, as @ and =, and wants what follows the last of these.
_mulgefa_complete() {
    local line=${COMP_LINE:0:COMP_POINT} words word current="" option="" flags=" " named=() cut
    [[ $line == *[[:blank:]] ]] || current=${line##*[[:blank:]]}
    read -ra words <<< "${line%"$current"}"
    for word in "${words[@]}"; do
        if [[ -n $option ]]; then
            option=""
        elif [[ $word == -["$2"] ]]; then
            option=$word
        elif [[ $word == -* ]]; then
            flags+="$word "
        else
            named+=("$word")
        fi
    done
    cut=$current
    while [[ -n $cut && $COMP_WORDBREAKS != *"${cut: -1}"* ]]; do
        cut=${cut%?}
    done
    COMPREPLY=()
    while read -r line; do
        if [[ -n $line && $line == "$current"* ]]; then
            printf -v word %q "${line#"$cut"}"
            COMPREPLY+=("$word")
        fi
    done < <(_mulgefa_choices "$1")
    if [[ ${#COMPREPLY[@]} -eq 1 && ${COMPREPLY[0]} == *= ]]; then
        compopt -o nospace
    fi
}

_mulgefa_upsc() { _mulgefa_complete upsc -; }
_mulgefa_upsrw() { _mulgefa_complete upsrw sup; }
_mulgefa_upscmd() { _mulgefa_complete upscmd up; }
_mulgefa_upsmon() { _mulgefa_complete upsmon -; }
_mulgefa_nutroom() { _mulgefa_complete nutroom ns; }
complete -F _mulgefa_upsc upsc
complete -F _mulgefa_upsrw upsrw
complete -F _mulgefa_upscmd upscmd
complete -o default -F _mulgefa_upsmon upsmon
complete -o default -F _mulgefa_nutroom nutroom
