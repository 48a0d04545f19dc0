#compdef adx
# Completes the words after adx, for zsh: a file _adx of a folder of $fpath. Made by tools/man of what the program says of itself.
if (( CURRENT == 2 )); then
    compadd -- day conn notices bidder gen close check archive-put archive-list reconcile serve post bid help --help --version
    return
fi
shift words
(( CURRENT-- ))
case $words[1] in
help) (( CURRENT != 2 )) || compadd -- day conn notices bidder gen close check archive-put archive-list reconcile serve post bid ;;
day) _arguments '--journal:file:_files' '--help' ;;
conn) _arguments '--journal:file:_files' '--help' ;;
notices) _arguments '--journal:file:_files' '--help' ;;
bidder) _arguments '--help' ;;
gen) _arguments '--seed:n: ' '--asks:m: ' '--help' ;;
close) _arguments '--journal:file:_files' '--ratio' '--help' ;;
check) _arguments '--help' ;;
archive-put) _arguments '--archive:file:_files' '--help' ;;
archive-list) _arguments '--archive:file:_files' '--seat:s: ' '--cid:c: ' '--from:day: ' '--to:day: ' '--help' ;;
reconcile) _arguments '--journal:file:_files' '--bidder:name: ' '--help' ;;
serve) _arguments '--roster:file:_files' '--journal:file:_files' '--port:p: ' '--workers:w: ' '--help' ;;
post) _arguments '--roster:file:_files' '--journal:file:_files' '--help' ;;
bid) _arguments '--prices:file:_files' '--port:p: ' '--help' ;;
esac
