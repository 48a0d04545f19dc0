# Completes the words after adx, for bash: . docs/adx.bash. Made by tools/man of what the program says of itself.
_adx() {
    local word=${COMP_WORDS[COMP_CWORD]} words
    case ${COMP_WORDS[COMP_CWORD - 1]} in
    --journal|--archive|--roster|--prices)
        compopt -o filenames
        mapfile -t COMPREPLY < <(compgen -f -- "$word")
        return
        ;;
    --seed|--asks|--seat|--cid|--from|--to|--bidder|--port|--workers)
        COMPREPLY=()
        return
        ;;
    esac
    case ${COMP_CWORD}:${COMP_WORDS[1]} in
    1:*) words="day conn notices bidder gen close check archive-put archive-list reconcile serve post bid help --help --version" ;;
    2:help) words="day conn notices bidder gen close check archive-put archive-list reconcile serve post bid" ;;
    *:day) words="--journal --help" ;;
    *:conn) words="--journal --help" ;;
    *:notices) words="--journal --help" ;;
    *:bidder) words="--help" ;;
    *:gen) words="--seed --asks --help" ;;
    *:close) words="--journal --ratio --help" ;;
    *:check) words="--help" ;;
    *:archive-put) words="--archive --help" ;;
    *:archive-list) words="--archive --seat --cid --from --to --help" ;;
    *:reconcile) words="--journal --bidder --help" ;;
    *:serve) words="--roster --journal --port --workers --help" ;;
    *:post) words="--roster --journal --help" ;;
    *:bid) words="--prices --port --help" ;;
    *) words= ;;
    esac
    mapfile -t COMPREPLY < <(compgen -W "$words" -- "$word")
}
complete -F _adx adx ./adx
