# Completion for bash: source this file, or install it as
# /usr/share/bash-completion/completions/anscheck. It is made by tools/completions.py.
_anscheck() {
    local word=${COMP_WORDS[COMP_CWORD]} command=${COMP_WORDS[1]} before=${COMP_WORDS[COMP_CWORD - 1]}
    local commands="why mend redraw needs check show sauce tokens table" flags="--help"
    COMPREPLY=()
    if [ "$COMP_CWORD" -eq 1 ]; then
        mapfile -t COMPREPLY < <(compgen -f -W "$commands help --help --version" -- "$word")
    elif [ "$command" = help ]; then
        mapfile -t COMPREPLY < <(compgen -W "$commands F1 F2 F3 F4 F5 F6 F7 F8 F9 F10 F11 F12 F13 F14 F15 F16 F17 F19 F20 F21 F22 F23 F24 F25 N1 N2 N3 N4 N5 N6 verdict pass cleared refused error start screen cursor saved colours wrap nothing size because from players player differences taller taller_screens fix more everywhere faults fault notes note found is hints hint lines least-lines broken content record beginning try suggested take-out crlf join-rows mixed name-colours add-record wrap-at-once line-ends home-on-clear clear-in-colour save-place-only dos-colours tab-prints line-erased wrap-off stops-at-edge page-controls terminal-controls own-colours columns needs_on_all_players file ice non-blink spacing aspect at row column width font date title author group comments" -- "$word")
    elif [[ " --add-record --columns --lines " == *" $before "* ]]; then
        # a number, which nothing can complete
        return
    elif [ "${word#-}" != "$word" ]; then
        case $command in
            mend) flags="-o --output -i --in-place -n --dry-run --suggested --take-out --crlf --join-rows --mixed --name-colours --ice --record --least-lines --lines --columns --add-record --help" ;;
            redraw) flags="-o --output -i --in-place -n --dry-run --help" ;;
            check) flags="--known-screen --known-cursor --known-saved --known-colours --known-wrap --cleared --any --cells --help" ;;
            show) flags="--html --vga --help" ;;
            table) flags="--json --no-header --pictures --help" ;;
        esac
        mapfile -t COMPREPLY < <(compgen -W "$flags" -- "$word")
    else
        mapfile -t COMPREPLY < <(compgen -f -- "$word")
    fi
}
complete -o filenames -F _anscheck anscheck
