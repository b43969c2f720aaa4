# Whether an archive is older than the sources. For bash scripts to source, in the root of the repository:
#
#   archive_age NAME ARCHIVE      says so on standard error, after NAME; the script goes on with the archive that is there
#
# A source may have come later and say the same, after a checkout for instance, so it is no error. scripts/static-archive and
# scripts/native-archive always write theirs anew. What rt leaves in a crate's out/ is no source.

archive_age() { # NAME ARCHIVE
    local newer
    [ -d crates ] || return 0 # the copy that rust/compare/faults makes has no sources
    newer=$(find crates -regextype posix-extended -regex 'crates/[^/]+/out' -prune -o \
        -type f \( -path '*/src/*' -o -path '*/specs/*' -o -path '*/proofs/*' \) -newer "$2" -print -quit)
    [ -z "$newer" ] || echo "$1: $newer is newer than $2; scripts/static-archive makes it anew" >&2
}
