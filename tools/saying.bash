# For the scripts that run the program: `root` is the repository's folder.

say() { printf '%s: %s\n' "${0##*/}" "$*" >&2; }

# Whether ./explain finds something wrong with words that name a machine or a program.
is_explained() {
    [[ ${1-} == run || ${1-} == program ]] || return 1
    "$root/explain" "$@" >/dev/null 2>&1
    [[ $? -eq 1 ]]
}

# Ends with a status of the program. Unless all went well, or the output was closed, it names what says more than the program's short
# text: ./explain, where it finds something in the words that follow, else the pages.
end_with() {
    local status=$1 pages=$2
    shift 2
    case $status in
        0 | 8) ;;
        [1-7]) if is_explained "$@"; then say "$root/explain$(printf ' %q' "$@") says what is wrong, and where"; else say "$pages"; fi ;;
        9 | 1[01]) say "$pages" ;;
    esac
    exit "$status"
}
