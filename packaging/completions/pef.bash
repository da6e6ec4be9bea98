# Completion of pef for bash. docs/USAGE.md has its commands and options.

_pef() {
    local word=${COMP_WORDS[COMP_CWORD]} command=${COMP_WORDS[1]} at=$COMP_CWORD
    local commands='prepare stubs load link show list extract inspect distances check help' offered=
    if [ "$at" = 1 ]; then
        offered="$commands -h --help --version"
    elif [ "$command" = help ]; then
        [ "$at" != 2 ] || offered=$commands
    elif [ "$command" = inspect ] && [[ $word == -* ]]; then
        offered='--json --files0 --resources -h --help'
    elif [ "$command" = prepare ] && [[ $word == -* ]]; then
        offered='--root --library -L --no-stubs --no-weak --json --bytes -o -h --help'
    elif [ "$command" = stubs ] && [[ $word == -* ]]; then
        offered='--first --step --no-weak --memory -o -h --help'
    elif [[ " $commands " == *" $command "* ]] && [[ $word == -* ]]; then
        offered='-h --help'
    fi
    mapfile -t COMPREPLY < <(compgen -W "$offered" -- "$word")
    # Where nothing is offered, bash offers files. These words are no files: commands, and the NAME of extract.
    case $at:$command in
    1:* | *:show | *:help | 3:extract) compopt +o default ;;
    esac
}
complete -o default -F _pef pef
