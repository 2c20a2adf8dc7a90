# How ./nvmesim and ./nvmelive have `make` build their programs in out/bin, and which run: the proved ones if they are of
# these sources, else those without their proofs. A line on standard error reports a build, and --version always does.
# Callers must set `name` and `top`, and have `tell` and `give_up`.

# The folder of the Python package.
readonly package=$top/clients/python
# What --help says of builds.
readonly help_on_builds=(
    "$(printf '%-35s%s' "$name --prove [--background]" 'prove and build nvmesim and nvmelive')"
    ''
    'The first run builds both without their proofs, in about a minute; --prove takes 15 to 30 minutes.'
)

# Calls make at the top, even from a make.
make_at_top() {
    env -u MAKEFLAGS -u MAKELEVEL -u MFLAGS NVMESIM_TELLS="$name" make -s --no-print-directory -C "$top" "$@"
}

# Makes a program ready to be run, by default the one of this name: `program` is its path.
prepare() {
    local line wanted=out/bin/${1:-$name}
    program=$top/$wanted
    command -v make >/dev/null || give_up 'there is no make, which is needed to build'
    ! make_at_top -q "$wanted" 2>/dev/null || return 0
    need_python 'to build'
    # Without make's own line about a build that failed, which has reported why.
    make_at_top "$wanted" 2>&1 | while IFS= read -r line; do
        [[ $line = 'make: *** '* ]] || printf '%s\n' "$line" >&2
    done || exit 70
    [ -x "$program" ] || give_up "could not be built: there is no $wanted"
}

# The newest heading of CHANGELOG.md says the version; that of clients/python is tested to be the same.
show_version() {
    local line version=
    while [ -z "$version" ] && IFS= read -r line; do
        [[ $line != '## '* ]] || version=${line#\#\# }
    done 2>/dev/null <"$top/CHANGELOG.md" || true
    [ -n "$version" ] || give_up 'CHANGELOG.md names no version'
    echo "$name $version"
    need_python 'to build'
    "$top/scripts/build" describe
}

# Proves both programs, here or in the background.
prove() {
    need_python 'to build'
    case $#:${1-} in
        0:) make_at_top prove || exit 70 ;;
        1:--background)
            mkdir -p "$top/out"
            # It outlives this terminal.
            (trap '' HUP INT && make_at_top prove) </dev/null >"$top/out/background.log" 2>&1 &
            tell 'proving in the background; out/prove.log and --version have its progress'
            ;;
        *) bad_words "'${*: -1}' is one word too many" ;;
    esac
}
