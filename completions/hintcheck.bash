# Completion of hintcheck's words for bash.
_hintcheck() {
    local word=${COMP_WORDS[COMP_CWORD]} commands='scan explain verdict list find check upgrade bare help'
    local command=${COMP_WORDS[1]} at=$COMP_CWORD i option options=--help
    COMPREPLY=()
    if [ "$COMP_CWORD" -eq 1 ]; then
        mapfile -t COMPREPLY < <(compgen -W "$commands --help --version" -- "$word")
        return
    fi
    case $command in
        scan)
            options='--strict --symbolic --max-steps --max-bytes --face --fail-on --expect --write-expect --json
                --causes --needs --all-needs --files-from --files-from0 --name --quiet --help'
            ;;
        explain) options='--strict --symbolic --max-steps --max-bytes --face --json --help' ;;
        verdict) options='--symbolic --both --max-steps --max-bytes --face --json --quiet --help' ;;
        list) options='--numbers --max-bytes --face --help' ;;
        find | check) options='--max-steps --max-bytes --face --help' ;;
        upgrade) options='--max-bytes --help' ;;
        bare) options='--symbolic --both --max-steps --help' ;;
        help)
            [ "$COMP_CWORD" -eq 2 ] && mapfile -t COMPREPLY < <(compgen -W "$commands" -- "$word")
            return
            ;;
        *) return ;;
    esac
    # Options and their values aren't among the names. In `--face=5` bash takes `=` for a word of its own.
    for ((i = 2; i < COMP_CWORD; i++)); do
        option=${COMP_WORDS[i]}
        case $option in
            --max-steps | --max-bytes | --face | --fail-on | --expect | --write-expect | --name)
                [ "${COMP_WORDS[i + 1]}" = = ] && i=$((i + 1)) && at=$((at - 1))
                i=$((i + 1)) at=$((at - 2))
                if [ "$i" -ge "$COMP_CWORD" ]; then
                    case $option in
                        --expect | --write-expect)
                            compopt -o filenames
                            mapfile -t COMPREPLY < <(compgen -f -- "${word#=}")
                            ;;
                        --fail-on) mapfile -t COMPREPLY < <(compgen -W possible -- "${word#=}") ;;
                    esac
                    return
                fi
                ;;
            -?*) at=$((at - 1)) ;;
        esac
    done
    if [[ $word == -* ]]; then
        mapfile -t COMPREPLY < <(compgen -W "$options" -- "$word")
        return
    fi
    case $command:$at in
        scan:* | explain:2 | verdict:2 | list:2 | find:[23] | check:[23] | upgrade:[23])
            compopt -o filenames
            mapfile -t COMPREPLY < <(compgen -f -- "$word")
            ;;
        list:3 | explain:3) mapfile -t COMPREPLY < <(compgen -W 'f p g0' -- "$word") ;;
    esac
}
complete -F _hintcheck hintcheck
