# shellcheck shell=sh
# Whether a program that was built earlier is still of these sources. ./kbd48 and launcher/try read this file; `here` must be
# the top of the repository. A folder with a program has `kbd48`, and `sources.sum`, the checksum of what it was built of.
: "${here:?}"

# Makes `file` a file's own place, through any symbolic links.
follow() {
    file=$1
    while [ -h "$file" ]; do
        to=$(readlink "$file") || return 1
        case $to in /*) file=$to ;; *) file=${file%/*}/$to ;; esac
    done
}

# The toolchain's command, and the file beside it that names its version; empty if it isn't on the path.
rt=$(command -v rt) && follow "$rt" && rt=$file && kit=${rt%/*}/../KIT-ID

# unchanged FILE PLACE ..: whether nothing in these places was touched since the file was written. The times of change tell it,
# which no copying sets back. Any doubt, one of `find` itself included, is a no.
unchanged() {
    looked=$1
    shift
    [ -e "$looked" ] || return 1
    touched=$(find "$@" -name out -prune -o -name must-fail -prune -o -name 'rows_*' -prune -o -cnewer "$looked" -print 2>&1) &&
        [ -z "$touched" ]
}

# untouched FILE: whether neither a source was touched since this file was written, nor a folder of them, nor the toolchain.
untouched() {
    [ -e "$1" ] || return 1
    looked=$1
    set -- "$here/crates.txt" "$here/HANDLES" "$here/crates"
    if [ -n "$rt" ]; then
        read -r by <"$looked" && [ "$rt" = "$by" ] || return 1
        set -- "$@" "$rt" "$kit"
    fi
    unchanged "$looked" "$@"
}

# stands FOLDER: whether the program in it is built of these sources, by this toolchain if there is one. If the checksum
# had to be counted and is right, the time before the counting is kept, so that the next call needs none.
stands() {
    [ -x "$1/kbd48" ] && [ -f "$1/sources.sum" ] || return 1
    # A release has no sources that could have changed.
    [ -e "$here/crates.txt" ] || return 0
    untouched "$1/sources.looked" && return
    { echo "$rt" >"$1/sources.looked.$$"; } 2>/dev/null
    now=$("$here/launcher/sources") || exit 1
    kept=$(cat "$1/sources.sum")
    [ -n "$rt" ] || kept=$(echo "$kept" | head -n 1)
    if [ "$now" = "$kept" ]; then
        mv "$1/sources.looked.$$" "$1/sources.looked" 2>/dev/null || true
    else
        rm -f "$1/sources.looked.$$"
        return 1
    fi
}
