# What ./topo of a checkout and the installed topo share: the options that they answer themselves, and how they run the program.
#
# A script sets these and then sources this file:
#   called    how the user calls topo, as in advice
#   beside    what stands before the name of a tool: tools/ or topo-
#   pages     the folder of the documents
#   version   the version
#   more      further lines of the help
#
# The program writes nothing to standard error. Where it ends with a status that is neither 0 nor 1, `launch` says there in one
# line what happened, to which file, and what to do. It writes nothing to standard output.

# Writes a line to standard error; what no terminal should be sent, as of the name of a file, becomes `?`.
say() {
    printf 'topo: %s\n' "$(printf '%s' "$1" | LC_ALL=C tr '\001-\037\177' '?')" >&2
}

tell_version() {
    printf 'topo %s\n' "$version"
}

tell_help() {
    cat <<END
usage: $called replay < SCRIPT                    replays a script on the empty project; a reply for each line
       $called replay PROJECT < SCRIPT            opens a saved project and replays the script on it; saves nothing
       $called replay PROJECT TARGET < SCRIPT     the same, and saves the project as TARGET; PROJECT - is the empty one
       $called check PROJECT                      says whether the errors of a saved project are right
       $called report PROJECT                     writes the errors of a saved project as a table (CSV)
       $called town SEED N                        makes a town of N rows, 1 to 60, and writes a summary of it
       $called --version | --help$more

Status: 0 all was done; 1 all except the lines that were refused; otherwise standard error says what happened.
Documents: $pages
END
}

# Answers an option that stands alone, and ends.
answer_option() {
    [ $# -eq 1 ] || return 0
    case $1 in
    --version) tell_version ;;
    --help) tell_help ;;
    *) return 0 ;;
    esac
    exit
}

# ---- why a run ended as it did

# How much room is left on the disk of a file or folder.
room() {
    kib=$(df -P -k -- "$1" 2>/dev/null | awk 'NR == 2 { print $4 }')
    echo "${kib:-unknown} KiB"
}

# The folder in which a file stands.
folder_of() {
    case $1 in
    /*/*) echo "${1%/*}" ;;
    /*) echo / ;;
    */*) echo "${1%/*}" ;;
    *) echo . ;;
    esac
}

explain_words() {
    case ${1-} in
    '') say "say what to do: replay, check, report or town ($called --help)" ;;
    replay) say "replay takes a PROJECT and a TARGET at most; the script comes from standard input ($called --help)" ;;
    check | report) say "$1 takes one PROJECT ($called --help)" ;;
    town) say "town takes two numbers, SEED and N; N is 1 to 60 ($called --help)" ;;
    *) say "there is no command \`$1\`: it is replay, check, report or town ($called --help)" ;;
    esac
}

explain_input() {
    if [ ! -e /dev/fd/0 ]; then
        say 'the script could not be read: standard input is closed'
    elif [ -d /dev/fd/0 ]; then
        say "the script could not be read: standard input is a folder; give it a file, as in $called replay < SCRIPT"
    else
        say 'the script could not be read to its end; the replies are those to the lines before, and nothing was saved'
    fi
}

explain_output() {
    out=/proc/$$/fd/1
    name=$(readlink "$out")
    if [ ! -e "$out" ]; then
        say 'the replies could not be written: standard output is closed'
    elif [ -p "$out" ] || [ -S "$out" ]; then
        say 'the replies break off, since whatever read them has stopped; nothing was saved'
    elif [ -f "$out" ]; then
        say "the replies break off: $name could not be written; its disk has $(room "$out") left; nothing was saved"
    else
        say "the replies break off: $name takes no more; nothing was saved"
    fi
}

explain_memory() {
    most=$(ulimit -v)
    [ "$most" = unlimited ] && most= || most=", with a limit of $most KiB (ulimit -v)"
    say "out of memory$most: the output breaks off, and nothing was saved; allow more, or split the script ($pages/limits.md)"
}

# The cause for which a line of a project is refused, in words.
cause_in_words() {
    case $1 in
    short) echo 'the text ends too early' ;;
    form) echo 'it is none of the lines that may come there' ;;
    shape) echo 'its shape is not valid' ;;
    range) echo 'a number is out of its bounds' ;;
    unknown) echo 'it names what is not there' ;;
    order) echo 'it is out of order, or there twice' ;;
    *) echo "$1" ;;
    esac
}

# What a file that is no project looks like, by its first line; else where it is refused.
explain_text() {
    first='' refused=
    if [ -f "$1" ]; then
        refused=$("$program" check "$1" </dev/null 2>/dev/null)
        IFS= read -r first <"$1"
    fi
    case $first in
    'SQLite format 3'*) say "$1 is a GeoPackage and no project: ${beside}from-ogr makes a script of it ($pages/your-data.md)" ;;
    'class '* | 'rule '* | 'begin '* | 'by '* | 'validate '* | '#'*)
        say "$1 is a script and no project: give it as input, as in $called replay < $1"
        ;;
    *)
        refused=${refused#project refused line }
        why=$(cause_in_words "${refused#* }")
        say "$1 is no project, by its line ${refused%% *}: ${why:-it is refused} ($pages/project-text.md#causes)"
        ;;
    esac
}

explain_opening() {
    if [ -d "$1" ]; then
        say "$1 is a folder and no project"
    elif [ ! -r "$1" ]; then
        say "$1 could not be read: permission denied, or its path goes through a file"
    else
        say "$1 could not be read; a project has at most 1,073,741,824 bytes"
    fi
}

explain_target() {
    folder=$(folder_of "$1")
    if [ -d "$1" ]; then
        reason='it is a folder'
    elif [ ! -d "$folder" ]; then
        reason="there is no folder $folder"
    elif [ -e "$1.new" ] || [ -L "$1.new" ]; then
        reason="$1.new is there, left by a run that was interrupted; look at it, and remove it"
    elif [ ! -w "$folder" ]; then
        reason="permission denied in the folder $folder"
    else
        reason="its disk has $(room "$folder") left"
    fi
    say "all lines were answered, but $1 could not be saved: $reason"
}

explain_missing() {
    folder=$(folder_of "$1")
    if [ ! -d "$folder" ]; then
        say "there is no file $1: its folder $folder is missing"
    elif [ "$2" = replay ]; then
        say "there is no file $1; the PROJECT - begins with the empty project"
    else
        say "there is no file $1"
    fi
}

explain_signal() {
    case $1 in
    KILL) say 'the program was killed, as the system does where memory runs out; of what it was saving nothing is said' ;;
    XFSZ) say 'the program was stopped at the limit for the size of a file (ulimit -f); of what it was saving nothing is said' ;;
    *) say "the program was ended by the signal $1; of what it was saving nothing is said" ;;
    esac
}

# Says why a run with these words ended with this status.
explain() {
    status=$1
    shift
    case $status in
    2) explain_words "$@" ;;
    3) explain_input ;;
    4) explain_output ;;
    5) explain_memory ;;
    6) explain_text "${2-}" ;;
    7) explain_opening "${2-}" ;;
    8) explain_target "${3-}" ;;
    9) say "the errors of ${2-} are not what its rules say; $pages/projects.md#what-to-do-when-a-project-is-not-sound helps" ;;
    10) say 'the script has more than 268,435,456 bytes: what lies beyond was not read, and nothing was saved; split it' ;;
    11) explain_missing "${2-}" "${1-}" ;;
    *) say "the program ended with the status $status, which it does not have: please report it" ;;
    esac
}

# ---- the run

# Ends the program where the launcher is told to end.
hand_on() {
    caught=$1
    [ -z "$child" ] || kill -s TERM "$child" 2>/dev/null
}

# Waits for the program, also where a signal interrupts that, and keeps its status.
await() {
    wait "$child" 2>/dev/null
    status=$?
    while [ -n "$caught" ] && kill -s 0 "$child" 2>/dev/null; do
        wait "$child" 2>/dev/null
        status=$?
    done
}

# Ends by the signal.
end_by() {
    ulimit -c 0
    trap - "$1"
    kill -s "$1" $$
}

# Runs the program with the words, and ends as it ended: `launch PROGRAM WORDS..`. It gets standard input by its number alone, since
# a shell gives what runs in the background an empty one.
launch() {
    program=$1
    shift
    caught='' child=''
    for name in HUP INT QUIT TERM; do
        trap "hand_on $name" "$name"
    done
    if [ -e /dev/fd/0 ]; then
        exec 9<&0
        "$program" "$@" <&9 9<&- &
        child=$!
        exec 9<&-
    else
        "$program" "$@" <&- &
        child=$!
    fi
    [ -z "$caught" ] || hand_on "$caught"
    await
    if [ "$status" -gt 128 ] && { [ -n "$caught" ] || caught=$(kill -l "$status" 2>/dev/null); }; then
        explain_signal "$caught"
        end_by "$caught"
    elif [ "$status" -gt 1 ]; then
        explain "$status" "$@"
    fi
    exit "$status"
}
