# The proved program of a crate, and the tool over the proved library. For bash scripts to source, after kit.sh:
#
#   root=..                   the repository, absolute
#   kit_find NAME
#   proved_program CRATE      sets program to an absolute path: the program of the sources as they are now, proved by this kit
#   proved_tool [native]      the same for the tool, rust/tool with the library's archive linked in: on x86-64 the one that rt
#                             writes (scripts/static-archive), elsewhere and for native the one of scripts/native-archive. Needs cargo
#
# Or it ends the script with status 2, and says why. `rt all test` in a program's folder proves it, builds it and runs it on its
# file stdin. It leaves the program in the crate's out/ also where its run was not what the file stdout has, and leaves the old one
# where the new one is not proved. So nothing is taken from there but right after a run that accepted all, and it is kept in
# target/proved under a name that holds a fingerprint of the kit and of all sources. Where there is none for the sources as they
# are, they are proved first, over what earlier checks kept: some minutes from nothing. Where there is one it costs the
# fingerprint, some hundredths of a second. The tool is kept in the same way; its fingerprint also covers its own sources and the
# version of cargo.
#
# Of several calls at once the first proves and the others wait. A call that is stopped leaves nothing that would be run: rt and
# what rt started are stopped first, then the script ends by the signal.

# Prints the fingerprint, of the crates and of what is named besides. An edit in must-fail/ or tests/ changes no program, and what
# rt leaves in a crate's out/ is no source. rt takes no link among the sources, so none is allowed.
proved_fingerprint() { # [PATH..]
    local odd
    set -o pipefail
    cd "$root" && odd=$(proved_sources "$@" ! -type d ! -type f -print -quit) || kit_trouble "the sources below $root cannot be read"
    [ -z "$odd" ] || kit_trouble "$root/$odd is neither a file nor a folder: nothing is run"
    {
        printf '%s\n' "$kit_id" "$kit_machine" && sha256sum crates.txt &&
            proved_sources "$@" -type f ! -path '*/must-fail/*' ! -path '*/tests/*' -print0 | LC_ALL=C sort -z | xargs -0 sha256sum
    } | sha256sum | cut -d ' ' -f 1 || kit_trouble "the sources below $root cannot be read"
}

# Has find go over the crates, but for their out/, and over what is named besides.
proved_sources() { # [PATH..] EXPRESSION
    local paths=(crates/)
    while [[ $1 != [-!]* ]]; do paths+=("$1") && shift; done
    find "${paths[@]}" -regextype posix-extended -regex 'crates/[^/]+/out' -prune -o "$@"
}

# Runs the words in a folder of the repository, with nothing to read, and gives their status. Bash holds a signal back until a command in the
# foreground ends, so they run beside it, and as a process group of their own, so that what they started can be stopped with them.
proved_run() { # FOLDER WORDS..
    local signal status=0 folder=$root/$1
    shift
    for signal in TERM HUP INT; do trap "proved_stop $signal" "$signal"; done
    (cd "$folder" && exec setsid "$@" </dev/null >&2) &
    wait $! || status=$?
    trap - TERM HUP INT
    return $status
}

# Asked of `jobs`, since the signal may come before anything could be kept of what was started.
proved_stop() { # SIGNAL
    local leader
    trap '' TERM HUP INT
    for leader in $(jobs -p); do
        kill -TERM -- "-$leader" 2>/dev/null || kill -TERM "$leader" 2>/dev/null || :
        { wait "$leader" || :; } 2>/dev/null
    done
    trap - "$1"
    kill -s "$1" "$BASHPID"
}

proved_say() { printf '%s: %s\n' "$kit_who" "$*" >&2; }

# Sets program to what is kept under the name and the fingerprint that FINGERPRINT prints. Where there is nothing, MAKE makes it
# now, with the lock open as file 9, in what it runs too, and sets built to the file that is to be kept.
proved_kept() { # NAME FINGERPRINT MAKE
    local fingerprint after tool old built store=$root/target/proved
    fingerprint=$($2) || exit 2
    program=$store/$1-$fingerprint
    [ ! -x "$program" ] || return 0
    for tool in flock setsid; do type -P $tool >/dev/null || kit_trouble "$tool is not on the path"; done
    { mkdir -p "$store" && exec 9>>"$store/lock"; } 2>/dev/null ||
        kit_trouble "$1 has to be proved and built, and $root/target cannot be written to"
    flock -n 9 || { proved_say "waiting for another call that proves it"; flock 9; } || kit_trouble "cannot lock $store"
    if [ ! -x "$program" ]; then
        $3
        after=$($2) || exit 2
        [ "$after" = "$fingerprint" ] || kit_trouble "the sources changed while they were proved: nothing is run"
        { cp "$built" "$program.new" && mv "$program.new" "$program"; } || kit_trouble "cannot keep $program"
        for old in "$store/$1"-*; do [ "$old" = "$program" ] || rm -f "$old"; done
    fi
    exec 9>&-
}

proved_program() { # CRATE
    local crate=$1
    proved_kept "$crate" proved_fingerprint proved_check
}

# Has rt prove, build and run the crate.
proved_check() {
    local status=0
    built=$root/crates/$crate/out/$crate
    proved_say "$crate is proved and built first; from nothing that takes some minutes"
    # without these rt has to make the program in this run, and to run it
    rm -f "$built.stamp" "$built.o" "$built" || kit_trouble "cannot remove $built"
    proved_run "crates/$crate" "$kit_rt" all test || status=$?
    [ "$status" -eq 0 ] && [ -x "$built" ] || kit_trouble "rt all test in crates/$crate does not accept the sources (status $status): nothing is run"
}

proved_tool() { # [native]
    local cargo cargo_id archive=rt name=apfelruder
    kit_command cargo cargo Rust
    cargo_id=$(cd "$root" && "$cargo" --version </dev/null) || kit_trouble "cargo --version failed"
    if [ "${1-}" = native ] || [ "$kit_machine" != x86_64 ]; then archive=scripts/native-archive name=apfelruder_native; fi
    proved_kept $name proved_tool_fingerprint proved_build
}

proved_tool_fingerprint() {
    local sources
    sources=$(proved_fingerprint rust/tool rust/apfelruder rust/Cargo.toml rust/Cargo.lock include \
        scripts/static-archive scripts/native-archive scripts/native_shim.c scripts/bare) || exit 2
    printf '%s\n' "$sources" "$cargo_id" "$archive" | sha256sum | cut -d ' ' -f 1
}

# Has rt prove the library and write its archive, and cargo build the tool over it.
proved_build() {
    local status=0 maker=scripts/static-archive folder=$root/target/staticlib
    if [ $archive != rt ]; then maker=$archive folder=$root/target/native; fi
    built=$root/target/tool/release/apfelruder
    proved_say "the library is proved and built first; from nothing that takes some minutes"
    rm -f "$built" || kit_trouble "cannot remove $built"
    proved_run . "$root/$maker" || status=$?
    [ $status -eq 0 ] || kit_trouble "$maker does not accept the sources (status $status): nothing is run"
    proved_say "building the tool"
    proved_run . env -u CARGO_BUILD_TARGET APFELRUDER_LIB_DIR="$folder" APFELRUDER_KIT="$kit_id" APFELRUDER_SOURCES="$fingerprint" \
        APFELRUDER_MACHINE="$kit_machine, archive of $archive" "$cargo" build --quiet --offline --locked --release \
        --manifest-path rust/Cargo.toml --target-dir target/tool -p apfelruder-tool || status=$?
    [ $status -eq 0 ] && [ -x "$built" ] || kit_trouble "cargo does not build the tool (status $status): nothing is run"
}
