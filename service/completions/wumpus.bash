# Completions for bash of wumpus and the programs around it.

_wumpus_options() {
    local options=$1 current=${COMP_WORDS[COMP_CWORD]} before=${COMP_WORDS[COMP_CWORD - 1]}
    case $before in
    --folder | --mirror-folder | --sockets)
        mapfile -t COMPREPLY < <(compgen -d -- "$current")
        return
        ;;
    --live)
        mapfile -t COMPREPLY < <(compgen -W "narrow full off" -- "$current")
        return
        ;;
    --group)
        mapfile -t COMPREPLY < <(compgen -g -- "$current")
        return
        ;;
    --mirror-user | --owner)
        mapfile -t COMPREPLY < <(compgen -u -- "$current")
        return
        ;;
    --program | --planner | --mirror | --users | --subuid | --metrics | --exclude-from | --settings | --socket | --watch | --documents | --extract | --now)
        mapfile -t COMPREPLY < <(compgen -f -- "$current")
        return
        ;;
    esac
    if [[ $current == -* ]]; then
        mapfile -t COMPREPLY < <(compgen -W "$options" -- "$current")
    else
        mapfile -t COMPREPLY < <(compgen -"$2" -- "$current")
    fi
}

_wumpus() {
    mapfile -t COMPREPLY < <(
        compgen -W "run demo check --max-input= --flush=" -- "${COMP_WORDS[COMP_CWORD]}"
    )
}

_wumpus_mirror() {
    _wumpus_options "--folder --program --planner --sockets --exclude --exclude-from --one-file-system
        --unlisted --users --served --every --live --watch --now --force --anew --dry-run --budget-names --budget-directories
        --budget-links --budget-bytes --budget-seconds --budget-documents --documents --extract
        --quiet --version --help" d
}

_wumpus_extract() {
    _wumpus_options "--socket --documents --check --version --help" f
}

_wumpus_watch() {
    _wumpus_options "--socket --owner --check --version --help" f
}

_wumpusd() {
    _wumpus_options "--folder --program --sockets --mirror --mirror-user --group --mode --allow
        --refuse-root --subuid --stale --stale-live --query-seconds --idle-seconds --age-seconds --connections
        --connections-of-user --reply-bytes --version --help" f
}

# Her own words that go on with what was typed, those of most files first.
_wumpus_ask() {
    local current=${COMP_WORDS[COMP_CWORD]} before=${COMP_WORDS[COMP_CWORD - 1]} place sockets=()
    case $before in
    --sockets)
        mapfile -t COMPREPLY < <(compgen -d -- "$current")
        return
        ;;
    -f | --file)
        mapfile -t COMPREPLY < <(compgen -f -- "$current")
        return
        ;;
    --color | --hyperlink)
        mapfile -t COMPREPLY < <(compgen -W "auto always never" -- "$current")
        return
        ;;
    esac
    if [[ $current == --* ]]; then
        _wumpus_options "--count --list --null --lines --number --max-count --after-context
            --before-context --context --open --file --expression --vimgrep --json --explain --any
            --exact-words --color --no-color --hyperlink --no-pager --sockets --version --help" d
        return
    fi
    for place in "${!COMP_WORDS[@]}"; do
        if [[ ${COMP_WORDS[place]} == --sockets ]]; then
            sockets=(--sockets "${COMP_WORDS[place + 1]}")
        fi
    done
    mapfile -t COMPREPLY < <(
        wumpus-ask "${sockets[@]}" --complete "$current" 2>/dev/null
    )
}

_wumpus_web() {
    local current=${COMP_WORDS[COMP_CWORD]}
    if [[ $current == --* || ${COMP_WORDS[COMP_CWORD - 1]} == --sockets ]]; then
        _wumpus_options "--no-open --unix --host --sockets --version --help" d
    else
        _wumpus_ask
    fi
}

_wumpus_lint() {
    _wumpus_options "--version --help" f
}

_wumpus_status() {
    _wumpus_options "--folder --mirror-folder --old --all --json --metrics --version --help" f
}

_wumpus_why() {
    _wumpus_options "--groups --folder --mirror-folder --settings --exclude-from --json
        --version --help" fu
}

complete -F _wumpus wumpus
complete -o filenames -F _wumpus_mirror wumpus-mirror
complete -o filenames -F _wumpus_extract wumpus-extract
complete -o filenames -F _wumpus_watch wumpus-watch
complete -o filenames -F _wumpusd wumpusd
complete -o nosort -F _wumpus_ask wumpus-ask
complete -o nosort -F _wumpus_web wumpus-web
complete -o filenames -F _wumpus_lint wumpus-lint
complete -F _wumpus_status wumpus-status
complete -o filenames -F _wumpus_why wumpus-why
