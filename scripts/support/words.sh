# What ./nvmesim and ./nvmelive make of the words that they are called with: both judge them alike, here and where they
# are installed. Whether a text is a script, the program nvmelive judges. Callers must set `name`, the program's, and
# have the functions `prepare`, which makes a program ready to be run, and `show_version`.

# How many bytes a script has at most.
readonly longest=4194304

# Becomes the program, which `prepare` made ready.
run_program() {
    exec "$program" ${sizes[@]+"${sizes[@]}"} "$@"
}

tell() {
    echo "$name: $1" >&2
}

# Ends if this script itself can't do what it should.
give_up() {
    tell "$1"
    exit 70
}

# Fails unless there is a Python that is new enough, which is needed for this.
need_python() {
    command -v python3 >/dev/null || give_up "there is no python3: Python 3.9 or later is needed $1"
    python3 -c 'import sys; sys.exit(sys.version_info < (3, 9))' 2>/dev/null ||
        give_up "python3 does not run, or is older than Python 3.9, which is needed $1"
}

# Ends as the program does if its command line is bad.
bad_words() {
    tell 'bad command line'
    tell "$1; usage: $usage"
    exit 3
}

# Ends as the program does if a file can't be used.
file_fault() {
    tell 'file fault'
    tell "$1"
    exit 2
}

# Whether a regular file begins with a line of a script. The program nvmelive judges that, of what is named as its
# image: here of a copy, as far as a script may be long, so that the file itself is neither opened to be written nor
# locked.
begins_a_script() {
    local judge copy told status=0
    [ "$1" != - ] && [ -f "$1" ] && [ -r "$1" ] || return 1
    judge=${program%/*}/nvmelive
    [ -x "$judge" ] || judge=$(prepare nvmelive && printf '%s' "$program") || exit 70
    copy=$(mktemp) || give_up 'there is no space to judge a text in'
    told=$(head -c $((longest + 1)) <"$1" >"$copy" && "$judge" "$copy" </dev/null 2>&1) || status=$?
    rm -f "$copy"
    case $status:$told in
        0:*) return 1 ;;
        2:*' is a script by its first line; '*) return 0 ;;
        *) give_up "it can't be judged whether '$1' is a script: $told" ;;
    esac
}

# Refuses an image that is a script, which the program would write blocks over.
refuse_script_as_image() {
    local why=
    if begins_a_script "$1"; then
        why='by its first line'
    elif [ -f "$1" ] && [[ $1 == *.nvme ]]; then
        why='by its name'
    fi
    [ -z "$why" ] || file_fault "'$1' is a script $why; to use it as an image, put --image before it"
}

# A single word is a script over zeros in memory if it ends in `.nvme`, whether it is there or not, if it is one by its
# text, and if it will be checked. Else the first word is an image. Then `words` are the program's.
judge_words() {
    local first=${words[0]-}
    if [ -n "$is_meant" ]; then
        # This program judges its image too, so it gets the option.
        [ "$name" != nvmelive ] || words=(--image "${words[@]}")
    elif [ ${#words[@]} -eq 2 ]; then
        refuse_script_as_image "$first"
    elif [ "$option" = --check ] || [[ $first == *.nvme ]] || begins_a_script "$first"; then
        words=(- "$first")
    fi
}

# The image that `words` name, if they name one.
image_named() {
    local named=${words[0]-}
    [ "$named" != --image ] || named=${words[1]}
    [ "$named" = - ] || printf '%s' "$named"
}

# Waits until no program holds the lock of an image. A file that can't be opened is left for the program to refuse.
await_lock() {
    [ -f "$1" ] && [ -r "$1" ] || return 0
    command -v flock >/dev/null || give_up 'there is no flock, of util-linux, which is needed for --wait'
    {
        if ! flock -n 9; then
            tell "'$1' is in use: waiting for its lock"
            flock 9
        fi
    } 9<"$1"
}

# Whether the program was refused the lock of its image, before it read anything: its status, and a file with what it
# reported.
lost_lock() {
    [ "$1" -eq 2 ] && grep -q 'is in use: .* holds its lock; --wait waits for it$' "$2"
}

# Runs the program in a process of its own, which gets the signals that this one gets, with standard error in a file.
run_apart() {
    local told=$1 child signal status=0
    shift
    (trap - INT QUIT && run_program "$@") <&0 2>"$told" &
    child=$!
    for signal in HUP INT QUIT TERM; do
        # shellcheck disable=SC2064
        trap "kill -s $signal $child 2>/dev/null || true" "$signal"
    done
    wait "$child" || status=$?
    while kill -0 "$child" 2>/dev/null; do
        status=0
        wait "$child" || status=$?
    done
    trap - HUP INT QUIT TERM
    return "$status"
}

# Runs the program once no other has the lock of its image. The program takes the lock itself; if another one is
# quicker, it is refused before it reads anything, and waits again.
run_waiting() {
    local image told status
    image=$(image_named)
    [ -n "$image" ] || run_program "$@"
    told=$(mktemp) || give_up 'there is no space for messages of the program'
    # shellcheck disable=SC2064
    trap "rm -f '$told'" EXIT
    while true; do
        await_lock "$image"
        status=0
        run_apart "$told" "$@" || status=$?
        lost_lock "$status" "$told" || break
    done
    cat "$told" >&2
    exit "$status"
}

# Parses the command line: `option` is the one of the options named first that was given, if any, `words` are the
# image and the script, or the image alone, or neither, `is_meant` says whether --image is before the image, and `sizes`
# has --any-size if it was given, which the program gets before all else.
# Words that the program would refuse are refused as it does, so that nobody waits for a build to hear that.
take_apart() {
    local allowed=$1 number=0
    shift
    option='' words=() is_meant='' sizes=()
    while [ $# -gt 0 ]; do
        number=$((number + 1))
        case $1 in
            --image)
                [ -z "$is_meant" ] && [ ${#words[@]} -eq 0 ] || bad_words "word $number, '$1', comes too late"
                [ $# -ge 2 ] || bad_words "word $number, '$1', has no image after it"
                is_meant=1 number=$((number + 1)) words=("$2")
                shift
                ;;
            --any-size)
                [ ${#sizes[@]} -eq 0 ] && [ ${#words[@]} -eq 0 ] || bad_words "word $number, '$1', comes too late"
                sizes=("$1")
                ;;
            -?*)
                [[ " $allowed " == *" $1 "* && -z $option ]] ||
                    bad_words "word $number, '$1', is not an option"
                option=$1
                ;;
            *)
                [ ${#words[@]} -lt 2 ] || bad_words "word $number, '$1', is one too many"
                words+=("$1")
                ;;
        esac
        shift
    done
}
