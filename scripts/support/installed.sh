# How nvmesim and nvmelive find their programs where they are installed: next to this file, in a file of their name.
# Who takes these lines in has set `name` and `support`, and has `give_up` and `bad_words`.

readonly help_on_builds=()
# The folder of the Python package.
readonly package=$support/python

# Makes a program ready to be run, by default the one of this name: `program` is its path.
prepare() {
    program=$support/${1:-$name}
    [ -x "$program" ] || give_up "is not installed: there is no $program"
}

show_version() {
    echo "$name $(cat "$support/version")"
    cat "$support/build"
}

prove() {
    bad_words "word 1, '--prove', is not an option"
}
