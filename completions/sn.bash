# Completion of `sn` for bash: read it by `source completions/sn.bash`, or install it as
# /usr/share/bash-completion/completions/sn.

# The options of a command that have a value.
_sn_options() {
    case "$1" in
        seal) echo "--uuid --key --identifier --cost --nonce" ;;
        open) echo "--uuid --key" ;;
        serve) echo "--store --port --requests" ;;
        register) echo "--store --server --identifier --cost" ;;
        signin) echo "--store --server --identifier" ;;
        put) echo "--store --title" ;;
        edit | del | list) echo "--store --uuid" ;;
        sync) echo "--store --server" ;;
        passwd) echo "--store --server --cost" ;;
        gen) echo "--number --count" ;;
        show | replay) ;;
    esac
}

_sn() {
    local commands="seal open show replay gen serve register signin put edit del list sync passwd"
    local current="${COMP_WORDS[COMP_CWORD]}" before="${COMP_WORDS[COMP_CWORD - 1]}" command="${COMP_WORDS[1]}"
    local offered="" option
    COMPREPLY=()

    # `--store=PATH` comes as three words.
    if [ "$current" = "=" ]; then
        current=""
    elif [ "$before" = "=" ]; then
        before="${COMP_WORDS[COMP_CWORD - 2]}"
    fi

    if [ "$COMP_CWORD" -eq 1 ]; then
        offered="$commands --help --version"
    elif [ "$before" = --store ]; then
        mapfile -t COMPREPLY < <(compgen -f -- "$current")
        compopt -o filenames 2>/dev/null
        return
    elif [[ " $commands " != *" $command "* ]] || [[ " $(_sn_options "$command") " == *" $before "* ]]; then
        return
    else
        # Each option is given once.
        for option in $(_sn_options "$command") --help; do
            [[ " ${COMP_WORDS[*]:2:COMP_CWORD-2} " == *" $option "* ]] || offered+=" $option"
        done
    fi
    mapfile -t COMPREPLY < <(compgen -W "$offered" -- "$current")
}

complete -F _sn sn
