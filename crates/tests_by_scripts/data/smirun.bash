# Completions of smirun for bash, as `smirun completions bash` writes them.

_smirun() {
    local word=${COMP_WORDS[COMP_CWORD]} last=${COMP_WORDS[COMP_CWORD - 1]}
    local command=${COMP_WORDS[1]} options= names= numbers=
    COMPREPLY=()
    if [ "$COMP_CWORD" -eq 1 ]; then
        command=
    fi
    case $command in
        check)
            options="--script --schedule --explain --no-explain --help"
            ;;
        lint)
            options="--all --strict --explain --no-explain --help"
            ;;
        print)
            options="--check --keep --explain --no-explain --help"
            ;;
        list)
            options="--explain --no-explain --json --help"
            ;;
        graph)
            options="--log --objects --members --from --count --explain --no-explain --help"
            numbers="--from --count"
            ;;
        page)
            options="--log --help"
            ;;
        states)
            options="--log --at --with --explain --no-explain --help"
            numbers="--at --with"
            ;;
        cover)
            options="--log --strict --explain --no-explain --help"
            ;;
        step)
            options="--capacity --max-starts --journal --explain --no-explain --strict --states --json --help"
            numbers="--capacity --max-starts"
            ;;
        run)
            options="--workers --capacity --max-starts --journal --progress --explain --no-explain --strict --states --json --help"
            numbers="--workers --capacity --max-starts"
            ;;
        live)
            options="--log --resume --sync --in-turn --capacity --max-starts --explain --no-explain --help"
            numbers="--capacity --max-starts"
            ;;
        next)
            options="--capacity --explain --no-explain --help"
            numbers="--capacity"
            ;;
        audit)
            options="--log --explain --no-explain --json --help"
            ;;
        completions)
            options="--help"
            names="bash zsh fish man"
            ;;
        help)
            names="check lint print list graph page states cover step run live next audit completions help"
            ;;
        "")
            options="--help --version"
            names="check lint print list graph page states cover step run live next audit completions help"
            ;;
    esac
    case " $numbers " in
        *" $last "*)
            compopt +o default 2>/dev/null
            return
            ;;
    esac
    if [ -n "$names" ]; then
        compopt +o default 2>/dev/null
    fi
    case $word in
        -*) names=$options ;;
    esac
    if [ -n "$names" ]; then
        COMPREPLY=($(compgen -W "$names" -- "$word"))
    fi
}

complete -o default -F _smirun smirun
