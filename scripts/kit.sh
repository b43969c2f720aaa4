# Finds the Rattle kit and names its tools, each by an absolute path that is there. For bash scripts to source, not to run:
#
#   . "$root/scripts/kit.sh"
#   kit_find NAME             NAME stands before what is said on standard error
#
# Where the kit or a part of it is not found, that is said and the script ends with status 2: nothing is looked for below the
# caller's folder, and nothing that was not found is run. Then there are
#
#   kit_rt          the command rt
#   kit_id          what `rt version` says: which kit it is
#   kit_home        the kit's folder: that of rt, or RATTLE_HOME if it is set, where an rt on the path is a script that stands before the kit's
#   kit_machine     this machine, as `uname -m` says it
#   kit_tools       the folder of the kit's compiler and C library
#   kit_clang, kit_ar, kit_lld, kit_link
#                   the compiler, its archiver and linker, and rattle-link, which links a program with the kit's C library
#   kit_emulator    an array: what stands before a static program for x86-64 to run it here (nothing on x86-64, the machine that the kit is for;
#                   on another one a kit has to bring an emulator)
#   kit_run         an array: what stands before any program for x86-64 to run it here, with the kit's loader and C library:
#                   "${kit_run[@]}" crates/split/out/split
#
# and three functions: kit_nm WORDS.., LLVM's nm; kit_trouble WORDS.., which says the words after NAME and ends the script with
# status 2; kit_command VARIABLE WORD WHOSE, which finds another command as rt is found.

kit_trouble() {
    printf '%s: %s\n' "$kit_who" "$*" >&2 || :
    exit 2
}

# The kit's clang is all of LLVM's tools in one file, and its name at the call says which.
kit_nm() { (exec -a llvm-nm "$kit_clang" "$@"); }

# Sets the variable to the word on the path, if it is a file there under an absolute name: neither a function nor something in
# the caller's folder.
kit_command() { # VARIABLE WORD WHOSE
    local found
    found=$(type -P "$2") || kit_trouble "$2 is not on the path; it is the command of $3"
    case $found in
    /*) printf -v "$1" %s "$found" ;;
    *) kit_trouble "$2 is on the path by an entry that is not absolute ($found); it is not run" ;;
    esac
}

kit_find_home() {
    local real
    if [ -n "${RATTLE_HOME:-}" ]; then
        kit_home=$RATTLE_HOME
        case $kit_home in /*) ;; *) kit_trouble "RATTLE_HOME is not an absolute path: $kit_home" ;; esac
    else
        real=$(readlink -f -- "$kit_rt") || kit_trouble "$kit_rt leads nowhere"
        kit_home=$(dirname -- "$(dirname -- "$real")")
    fi
    [ -d "$kit_home" ] || kit_trouble "there is no kit at $kit_home"
}

kit_must_have() { # FILE..
    local file
    for file; do
        [ -f "$file" ] && [ -x "$file" ] || kit_trouble "the kit at $kit_home has no ${file#"$kit_home"/}"
    done
}

kit_find() { # NAME
    local variable loader
    kit_who=$1
    kit_command kit_rt rt 'the Rattle kit'
    kit_find_home
    kit_machine=$(uname -m)
    kit_tools=$kit_home/toolchain
    kit_clang=$kit_tools/bin/clang kit_ar=$kit_tools/bin/llvm-ar kit_lld=$kit_tools/bin/ld.lld kit_link=$kit_home/bin/rattle-link
    loader=$kit_tools/lib/ld-linux-x86-64.so.2
    kit_emulator=()
    [ "$kit_machine" = x86_64 ] || kit_emulator=("$kit_tools/bin/qemu-x86_64")
    kit_run=("${kit_emulator[@]}" "$loader" --library-path "$kit_tools/lib")
    kit_must_have "$kit_clang" "$kit_ar" "$kit_lld" "$kit_link" "$loader" "${kit_emulator[@]}"
    kit_id=$("$kit_rt" version </dev/null) || kit_trouble "rt version failed"
    # these change what an emulated program does
    for variable in "${!QEMU_@}"; do unset "$variable"; done
}
