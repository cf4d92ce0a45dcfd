# shellcheck shell=sh
# shellcheck disable=SC2154  # `top` is set by whoever reads this
# Whether what was built is of the sources and the kit that are there now. For scripts that set `top` to the folder of the repository, and
# read this with `.`.
#
# Where a proof ends, it leaves a mark: a checksum of the sources (crates.txt, and src/, specs/ and proofs/ of each crate, by name and
# content), what `rt version` says, and a checksum of the binary beside which it lies. The mark has the time at which the proof began, and
# there is none where a source changed since then. The page says inside of which sources and kit it is made; a mark of it is left when it is
# first compared with them.
#
# A look at times comes first, since it takes some hundredths of a second. Where no source and no file beside `rt` is newer than the mark, by
# the time of its content or by that at which it was put there, and the binary or the page is the file that was marked, nothing has changed.
# Else the checksums decide, in some tenths of a second, and where they are the same the mark gets the time of this look.
#
# A binary without a mark is one that `rt ci` or `rt run`, called by itself, has left. There times alone decide.
#
# What can still fool this: a clock that was set back; a kit that was changed behind the same files beside `rt`, or where no `rt` is found;
# where there is no mark, a source that was changed while `rt` ran, or a folder that was taken away whole; whoever writes a mark, or what a
# page says of itself, by hand (web/tools/test_page.sh compares the page with one that it makes).

# The file that is `rt`; nothing where there is none.
file_of_rt() {
    set -- "$(command -v rt)"
    [ -z "$1" ] || readlink -f -- "$1"
}

# Whether a source, or a file beside `rt`, is newer than this file, or can't be looked at. A folder is newer where a file came or went.
is_newer_than() {
    set -- "$1" "$(file_of_rt)"
    newer=$(find "$top"/crates/*/src "$top"/crates/*/specs "$top"/crates/*/proofs "$top/crates.txt" ${2:+"${2%/*}"} \
        \( -newer "$1" -o -cnewer "$1" \) -print -quit 2>/dev/null) || return 0
    [ -n "$newer" ]
}

# The checksum of the sources.
sum_of_sources() {
    set -- "$(cd "$top" && find crates.txt crates/*/src crates/*/specs crates/*/proofs ! -type d -print0 | LC_ALL=C sort -z |
        xargs -0 sha256sum)" || return 1
    set -- "$(printf '%s\n' "$1" | sha256sum)"
    printf '%s\n' "${1%% *}"
}

# Where `rt` is, how many folders of sources there are, and of the marked file its number in the file system, size and times. This is the
# first line of a mark.
places() {
    set -- "$1" "$top"/crates/*/src "$top"/crates/*/specs "$top"/crates/*/proofs
    printf '%s\n' "places $(file_of_rt) $# $(stat -c '%i %s %Y %Z' -- "$1")"
}

# The checksums of the sources and of this file, and what the kit says of itself. Where there is no `rt`, the kit of this mark stands.
sums() {
    set -- "$1" "$2" "$(sum_of_sources)" "$(rt version 2>/dev/null)" || return 1
    [ ${#3} -eq 64 ] || return 1
    [ -n "$4" ] || set -- "$1" "$2" "$3" "$(sed -n 's/^kit //p' -- "$1" 2>/dev/null)"
    printf '%s\n' "sources $3" "kit $4"
    sha256sum <"$2"
}

# Writes a mark with the time of a file, of the marked file and of these sums.
lay_mark() {
    { places "$3" && printf '%s\n' "$4"; } >"$1.new.$$" && touch -r "$2" -- "$1.new.$$" && mv -f -- "$1.new.$$" "$1"
}

# Leaves this mark of a proof that began at the time of this file, and of the binary that it made. Fails where a source has changed since.
write_mark() {
    set -- "$1" "$2" "$3" "$(sums "$1" "$3")" || return 1
    is_newer_than "$2" && return 1
    lay_mark "$@"
}

# Whether this mark of this file is of what is there now.
is_marked() {
    [ -e "$1" ] || return 1
    IFS= read -r marked <"$1" || return 1
    [ "$marked" != "$(places "$2")" ] || is_newer_than "$1" || return 0
    seen=$(mktemp) || return 1
    found=$(sums "$1" "$2") && [ "$found" = "$(sed 1d -- "$1")" ]
    same=$?
    # A mark that can't be written keeps its time, and the checksums are made again.
    [ "$same" -ne 0 ] || lay_mark "$1" "$seen" "$2" "$found" 2>/dev/null
    rm -f -- "$seen"
    return "$same"
}

# Whether this binary is of what is there now.
is_current() {
    [ -e "$1" ] || return 1
    if [ -e "$1.made" ]; then
        is_marked "$1.made" "$1"
    else
        ! is_newer_than "$1"
    fi
}

# What a page says that it is made of: `version VERSION sources SUM kit KIT`, as web/tools/make_page.sh has it written.
made_of_page() {
    sed -n '/^<title>/q; s/^<meta name="made" content="\(.*\)">$/\1/p' -- "$1" 2>/dev/null
}

# Whether this page has the proved program of the sources that are there now, and of this kit, where there is one. Its mark is out/page.seen.
is_page_current() {
    [ -e "$1" ] || return 1
    is_marked "$top/out/page.seen" "$1" && return 0
    seen=$(mktemp) || return 1
    set -- "$1" "$(made_of_page "$1")" "$(sum_of_sources)" "$(rt version 2>/dev/null)"
    # Where there is no `rt`, the kit of the page stands.
    case $2 in
        "version "*" sources $3 kit ${4:-"${2#* kit }"}") [ ${#3} -eq 64 ] ;;
        *) false ;;
    esac
    same=$?
    # A mark that can't be written is none: the checksums are made again next time.
    if [ "$same" -eq 0 ] && mkdir -p "$top/out" 2>/dev/null; then
        lay_mark "$top/out/page.seen" "$seen" "$1" "sources $3
kit ${2#* kit }
$(sha256sum <"$1")" 2>/dev/null
    fi
    rm -f -- "$seen"
    return "$same"
}
