# bash completion for midiseq: subcommands, options, files to read, and CLIENT=PATH.

# Files that begin with $1, and folders on the way to others; the names end in one of the other words, if any is given.
_midiseq_files() {
    local begun=$1 path ending
    shift
    compopt -o filenames 2>/dev/null
    while IFS= read -r path; do
        if [[ -d $path || $# -eq 0 ]]; then
            COMPREPLY+=("$path")
            continue
        fi
        for ending in "$@"; do
            [[ $path == *"$ending" ]] && COMPREPLY+=("$path")
        done
    done < <(compgen -f -- "$begun")
}

# The word before the cursor, whole: bash cuts words at = and at :, which stand in COMP_WORDBREAKS.
_midiseq_word() {
    local line=${COMP_LINE:0:COMP_POINT}
    printf '%s' "${line##*[[:space:]]}"
}

_midiseq() {
    local word sub previous subcommands='run record circle why live thru wire dump make check'
    word=$(_midiseq_word)
    sub=${COMP_WORDS[1]}
    previous=${COMP_WORDS[COMP_CWORD - 1]}
    COMPREPLY=()
    if ((COMP_CWORD == 1)); then
        mapfile -t COMPREPLY < <(compgen -W "$subcommands help --help --version" -- "$word")
        return
    fi
    case $previous in
        --dir | --logs)
            compopt -o filenames 2>/dev/null
            mapfile -t COMPREPLY < <(compgen -d -- "$word")
            return
            ;;
        --out)
            _midiseq_files "$word"
            return
            ;;
        --like)
            _midiseq_files "$word" .mid .MID .midi
            return
            ;;
        --log)
            _midiseq_files "$word"
            return
            ;;
        --format)
            mapfile -t COMPREPLY < <(compgen -W 'text json csv' -- "$word")
            return
            ;;
        --at)
            # A moment for why; for dump a flag.
            [[ $sub == dump ]] || return
            ;;
        --until | --for | --port | --ports | --ppq | --bpm | --owner | --from | --message) return ;;
    esac
    case $sub in
        run | record | circle | why)
            if [[ $word == -* ]]; then
                local options='--until --for --to-end --dir --lenient --list --explain --strict --format --logs --append --quiet --help'
                [[ $sub == record ]] && options='--until --for --to-end --dir --lenient --explain --strict --raw --port --ports --ppq --bpm --like --out --help'
                [[ $sub == circle ]] && options='--until --for --to-end --dir --lenient --owner --session --help'
                [[ $sub == why ]] && options='--from --at --message --log --dir --lenient --help'
                mapfile -t COMPREPLY < <(compgen -W "$options" -- "$word")
            elif [[ $word == *=* ]]; then
                _midiseq_files "${word#*=}"
                # Where bash does not cut words at =, the client stands before the path.
                [[ $COMP_WORDBREAKS == *=* ]] || COMPREPLY=("${COMPREPLY[@]/#/${word%%=*}=}")
            fi
            ;;
        live)
            mapfile -t COMPREPLY < <(compgen -W '--dir --lenient --help' -- "$word")
            ;;
        thru | wire)
            if [[ $word == -?* ]]; then
                mapfile -t COMPREPLY < <(compgen -W '--help' -- "$word")
            else
                _midiseq_files "$word"
            fi
            ;;
        dump)
            if [[ $word == -?* ]]; then
                mapfile -t COMPREPLY < <(compgen -W '--all --at --lenient --help' -- "$word")
            else
                _midiseq_files "$word" .mid .MID .midi
            fi
            ;;
        make)
            if [[ $word == -?* ]]; then
                mapfile -t COMPREPLY < <(compgen -W '--out --help' -- "$word")
            else
                _midiseq_files "$word"
            fi
            ;;
        check)
            if [[ $word == -* ]]; then
                mapfile -t COMPREPLY < <(compgen -W '--quiet --lenient --help' -- "$word")
            else
                _midiseq_files "$word" .mid .MID .midi
            fi
            ;;
        help)
            ((COMP_CWORD == 2)) && mapfile -t COMPREPLY < <(compgen -W "$subcommands" -- "$word")
            ;;
    esac
}

complete -F _midiseq midiseq
