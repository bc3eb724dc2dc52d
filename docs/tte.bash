# shellcheck shell=bash
# Completion of the arguments of tte, lens and storms for bash. Source this file: . docs/tte.bash

# The forms of the usage line, and those of the script.
_tte_forms=(
    'show FILE'
    'check NETWORK'
    'run NETWORK TRACE'
    'storm NETWORK SEED CYCLES'
    'stamp NETWORK TRACE GRANULE'
    'audit NETWORK REPORT'
    'capture FILE'
    'wire NETWORK TRACE LINK WAY'
    'vote NETWORK TRACE VL VL VL'
    'prove'
    'install DIR'
    'help'
    '--version'
)

# The forms of the usage line of lens, and those of the script.
_lens_forms=(
    'slack NETWORK [RULE]'
    'least NETWORK'
    'sheet NETWORK'
    'plan NETWORK MESSAGES'
    'latency NETWORK [REPORT]'
    'why NETWORK REPORT N'
    'draw NETWORK [REPORT]'
    'draw NETWORK REPORT CYCLE [NAME]'
    'draw NETWORK REPORT FROM TO [NAME]'
    'page NETWORK REPORT'
    'clocks NETWORK REPORT'
    'flows NETWORK REPORT'
    'events NETWORK SEED CYCLES'
    'help'
    '--version'
)

# Offers the commands of these forms that begin with this.
_tte_commands() {
    local word=$1
    shift
    mapfile -t COMPREPLY < <(compgen -W "${*%% *}" -- "$word")
}

# Offers the networks and directories that begin with this, or any file where there are none.
_tte_networks() {
    mapfile -t COMPREPLY < <({ compgen -f -X '!*.toml' -- "$1"; compgen -d -- "$1"; } | sort -u)
    compopt -o filenames -o default 2>/dev/null
}

# Offers any file: bash itself does so where nothing else is offered.
_tte_files() {
    compopt -o default 2>/dev/null
}

# The names of the tables of a network that have this key: child is a link's, sender a virtual link's. Tables are in braces
# or in blocks.
_tte_names() {
    awk -v key="$1" '
        function tell(table, name) {
            if (table !~ "(^|[^a-z_])" key "[ \t]*=") return
            if (!match(table, /(^|[^a-z_])name[ \t]*=[ \t]*["\047][a-z0-9_]+["\047]/)) return
            name = substr(table, RSTART, RLENGTH)
            gsub(/^[^"\047]*["\047]|["\047]$/, "", name)
            print name
        }
        { sub(/#.*/, "") }
        /^[ \t]*\[\[/ { tell(block); block = ""; next }
        { block = block " " $0 }
        /\}/ {
            while (match(block, /\{[^{}]*\}/)) {
                table = substr(block, RSTART + 1, RLENGTH - 2)
                block = substr(block, 1, RSTART - 1) substr(block, RSTART + RLENGTH)
                tell(table)
            }
        }
        END { tell(block) }' "$2" 2>/dev/null
}

# Offers the names of the network that begin with this, of the tables that have this key.
_tte_named() {
    mapfile -t COMPREPLY < <(compgen -W "$(_tte_names "$1" "${COMP_WORDS[2]}")" -- "$2")
}

# Offers what the form of the command, one of these, has at this place. A number is left alone.
_tte_by() {
    local word=${COMP_WORDS[COMP_CWORD]} form kinds
    COMPREPLY=()
    if [ "$COMP_CWORD" -eq 1 ]; then
        _tte_commands "$word" "$@"
        return
    fi
    for form in "$@"; do
        read -ra kinds <<<"$form"
        [ "${kinds[0]}" = "${COMP_WORDS[1]}" ] || continue
        case ${kinds[COMP_CWORD - 1]-} in
            NETWORK) _tte_networks "$word" ;;
            FILE | TRACE | REPORT | '[REPORT]' | MESSAGES) _tte_files ;;
            LINK) _tte_named child "$word" ;;
            VL) _tte_named sender "$word" ;;
            '[NAME]') _tte_named '(sender|role)' "$word" ;;
            WAY) mapfile -t COMPREPLY < <(compgen -W 'up down' -- "$word") ;;
            '[RULE]') mapfile -t COMPREPLY < <(compgen -W '8 9 10 11 12 13 21 23' -- "$word") ;;
            DIR) mapfile -t COMPREPLY < <(compgen -d -- "$word") && compopt -o filenames 2>/dev/null ;;
        esac
    done
}

_tte() {
    _tte_by "${_tte_forms[@]}"
}

_lens() {
    _tte_by "${_lens_forms[@]}"
}

_storms() {
    COMPREPLY=()
    [ "$COMP_CWORD" -ne 1 ] || _tte_networks "${COMP_WORDS[1]}"
}

complete -F _tte tte ./tte
complete -F _lens lens ./lens
complete -F _storms storms ./storms
