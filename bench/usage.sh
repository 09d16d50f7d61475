# Sourced by the scripts here that are given no words: `--help` prints what a script's first comment says, and anything else is refused.
case "$# ${1-}" in
'0 ') ;;
'1 --help')
    echo "usage: bench/${0##*/}"
    echo
    sed -n '1d; /^#/!q; s/^# //p' "$0"
    exit 0
    ;;
*)
    echo "usage: bench/${0##*/}" >&2
    exit 2
    ;;
esac
