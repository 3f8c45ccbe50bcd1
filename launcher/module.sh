# shellcheck shell=sh
# Answers by the proved module in lab/lab.html, which Node runs, or by the C program that c/portable makes of it. Both count only if
# the page names the checksum of these very sources. The launcher reads this file after kept.sh; `here` must be the top of
# the repository.
: "${here:?}"

page=$here/lab/lab.html
# The checksum of these sources, and what was said, beside the marks of the programs.
marks=$here/crates/kbd48/out/module
portable=$here/dist/portable
node=$(command -v node) || node=
sources=
page_sources=

# Sets `page_sources` to the checksum of sources that the page's head names, or to nothing.
read_page() {
    [ -r "$page" ] || return 0
    while read -r line; do
        case $line in
            '<meta name="kbd48-sources" content="'*)
                line=${line#*content=\"}
                page_sources=${line%%\"*}
                break ;;
            '</head>') break ;;
        esac
    done <"$page"
}

# Whether nothing was touched since the checksum was counted last, which is read then.
is_counted() {
    unchanged "$marks/looked" "$here/crates.txt" "$here/crates" "$here/lab/wasm" "$here/launcher/bitcode.py" \
        "$here/launcher/keeping_clang" "$here/launcher/sources" "$here/c/kbd48.h" && read -r sources <"$marks/sources"
} 2>/dev/null

# Keeps the checksum, and the time before the counting, which has a file of this call.
keep_count() {
    echo "$sources" >"$marks/sources.$$" && mv "$marks/sources.$$" "$marks/sources" && mv "$marks/looked.$$" "$marks/looked"
} 2>/dev/null

# Sets `sources` to the checksum of what the modules are made of.
count_sources() {
    is_counted && return
    { mkdir -p "$marks" && : >"$marks/looked.$$"; } 2>/dev/null
    sources=$("$here/launcher/sources" --module) || return
    if [ -e "$marks/looked.$$" ]; then keep_count; fi
}

# Whether the page's module is of these sources.
is_current() {
    if [ -z "$page_sources" ]; then read_page; fi
    if [ -n "$page_sources" ] && [ -z "$sources" ]; then count_sources; fi
    [ -n "$page_sources" ] && [ "$page_sources" = "$sources" ]
}

# says_once NAME TEXT: says what answers, once for these sources if that can be kept.
says_once() {
    { read -r said_of <"$marks/said_$1" && [ "$said_of" = "$sources" ]; } 2>/dev/null && return
    echo "kbd48: $2" >&2
    { echo "$sources" >"$marks/said_$1"; } 2>/dev/null
}

node_can() { [ -n "$node" ] && is_current; }

# Ends the answer of a Node that didn't come to a status of module.mjs: node_failed STATUS.
node_failed() {
    case $("$node" --version 2>/dev/null) in
        v[0-9].* | v1[0-7].*)
            echo "kbd48: $node is too old: Node 18 or later runs the module in lab/lab.html" >&2
            return 90 ;;
    esac
    echo "kbd48: NO ANSWER: Node ended with $1" >&2
    return 1
}

# node_answers WORDS: the program's answer, by the module. The status is the program's, 90 if Node can't use the module, or 1 if
# there is no answer; of these two the reason was said.
node_answers() {
    closed=none
    { true 3<&0; } 2>/dev/null || closed=in
    { true 3>&1; } 2>/dev/null || closed=$closed,out
    "$node" "$here/launcher/module.mjs" "$page" "$("$here/launcher/files" "$@")" "$closed" "$@"
    ended=$?
    case $ended in
        10[0-8]) ended=$((ended - 100)) ;;
        91) return 1 ;;
        90) return 90 ;;
        *) node_failed "$ended"; return ;;
    esac
    says_once node "answers are from the proved program of these very sources, as WebAssembly in lab/lab.html, run by Node. \
Node and the compiler to WebAssembly are tested, not proved: docs/INSTALL.md. This is said once."
    return "$ended"
}

# Whether there is a C program of this page's module.
portable_can() {
    [ -x "$portable/kbd48" ] && is_current && { read -r made_of <"$portable/sources"; } 2>/dev/null && [ "$made_of" = "$sources" ]
}

can_make_portable() {
    command -v wasm2c >/dev/null && command -v "${CC:-cc}" >/dev/null && [ -x "$here/c/portable" ] && is_current
}

# Makes that program. One call makes it at a time, and others wait for it.
make_portable() {
    can_make_portable || return
    { mkdir -p "$marks" && command exec 9>"$marks/lock"; } 2>/dev/null || return
    if command -v flock >/dev/null && ! flock -n 9; then
        echo "kbd48: another call makes the C program of the module; waiting for it" >&2
        flock 9
    fi
    if ! portable_can; then
        echo "kbd48: making the C program of the proved module in lab/lab.html, once for these sources; it takes about a minute" >&2
        "$here/c/portable" --program >&2 9>&- || echo "kbd48: c/portable could not make it" >&2
    fi
    exec 9>&-
    portable_can
}

# portable_answers WORDS: the answer of that program.
portable_answers() {
    "$portable/kbd48" "$@"
    ended=$?
    says_once portable "answers are from the proved program of these very sources, as the C program that c/portable made of \
lab/lab.html. wabt and the compilers are tested, not proved: docs/INSTALL.md. This is said once."
    return "$ended"
}
