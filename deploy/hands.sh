# Root's hands in a folder of another's: the other scripts read this file, and it isn't run by itself. Whoever owns a folder can put a link in the
# place of any name in it, between two commands too. So root works there as that user, who can do no more by it than before. tools/hands looks
# that no script touches a file otherwise, but in folders that it made itself or knows to be root's.

# The user in whose power the names in FOLDER are: the first owner on the way to it who isn't root. Nothing where all of it is root's. Fails where
# others may write in a folder of root's, so that nobody can say whose its names are.
power_over() {
    case $1 in
        /*) set -- "$1" ;;
        *) set -- "$(pwd -P)/$1" ;;
    esac
    power_path=$(namei -m -o -- "$1") || return 1
    printf '%s\n' "$power_path" | awk 'NR == 1 || $1 ~ /^l/ && $2 == "root" { next }
        $2 != "root" { print $2; found = 1; exit }
        { mode = $1; group = $3 }
        substr(mode, 9, 1) == "w" && substr(mode, 10) !~ /[tT]/ { open = 1; exit }
        END { exit !found && (open || substr(mode, 9, 1) == "w" || substr(mode, 6, 1) == "w" && group != "root") }' ||
        { echo "nobody can say whose the names in $1 are: others than its owner may write there" >&2; return 1; }
}

# Fails where this is root, and another user can put a file in the place of one in FOLDER.
sees_own() {
    [ "$(id -u)" -eq 0 ] || return 0
    power_user=$(power_over "$1") || fail "nothing is written to $1"
    [ -z "$power_user" ] || fail "$power_user can put other files in the place of those in $1: name a folder of root's"
}

# Runs a program, with its words, as the user in whose power FILE's folder is, and away from the terminal. As it is, where this isn't root or all
# is root's. The descriptors of `hold` stay with this.
as_owner() (
    folder=$(dirname -- "$1")
    shift
    [ "$(id -u)" -eq 0 ] || exec "$@" 8>&- 9>&-
    user=$(power_over "$folder") || exit 1
    become "$user" "$@"
)

# Goes on as a program, run as USER, or as root where that is nothing.
become() {
    user=$1
    shift
    [ -n "$user" ] || exec "$@" 8>&- 9>&-
    group=$(id -g -- "$user" 2>/dev/null) || group=65534
    exec setsid -w setpriv --reuid "$user" --regid "$group" --clear-groups --no-new-privs -- "$@" 8>&- 9>&-
}

# The user in whose power PROGRAM is: the first one, other than root, who owns a folder on the way, a link to it, or itself. Nothing where all of it is
# root's. Fails as power_over does.
power_over_program() {
    power_over "$(dirname -- "$1")" >/dev/null && power_over "$(dirname -- "$(readlink -f -- "$1")")" >/dev/null && power_over "$1"
}

# Runs PROGRAM, with its words, as the user in whose power it is.
as_its_owner() (
    [ "$(id -u)" -eq 0 ] || exec "$@" 8>&- 9>&-
    user=$(power_over_program "$1") || exit 1
    become "$user" "$@"
)

# Fails where this is root, and another user can change PROGRAM, or put another in its place.
sees_own_program() {
    [ "$(id -u)" -eq 0 ] || return 0
    power_user=$(power_over_program "$1") || fail "$1 isn't run"
    [ -z "$power_user" ] || fail "$power_user can change $1, or put another in its place: name a program of root's"
}

# What stands in FILE. No link is followed, and nothing is waited for where it is no file.
read_out() {
    as_owner "$1" dd if="$1" iflag=nofollow,nonblock bs=1M status=none
}

# Makes FILE, which isn't there, of what stands in FROM. Its owner reads that too, but where it is in a folder of root's.
copy_to() {
    copy_user=''
    [ "$(id -u)" -ne 0 ] || copy_user=$(power_over "$(dirname -- "$1")") || return 1
    if [ -z "$copy_user" ]; then
        as_owner "$2" dd of="$2" conv=excl,fsync bs=1M status=none <"$1"
    else
        as_owner "$2" dd if="$1" iflag=nofollow,nonblock of="$2" conv=excl,fsync bs=1M status=none
    fi
}

# Puts what it reads at FILE at once, with this mode.
put_at() {
    as_owner "$1" sh -c 'new=$(mktemp -- "$1.XXXXXX") && cat >"$new" && chmod "$2" "$new" && mv -fT -- "$new" "$1" && exit
        rm -f -- "$new"
        exit 1' sh "$1" "$2"
}

# Writes what it reads behind what stands in FILE.
append_to() {
    as_owner "$1" sh -c 'cat >>"$1" && sync -- "$1"' sh "$1"
}

# Has the lock of FILE until `let_go` or the end of this: a process of its owner has it, which waits for the other end of the descriptor FD, 8 or 9. No
# program that goes on behind this may have that. WORD is a word of flock's. FILE is opened to be read and written, which waits for nobody, and made.
# Who has the lock is written there.
hold() {
    hold_said=''
    hold_pipes=$(mktemp -d) || return 1
    mkfifo "$hold_pipes/until" "$hold_pipes/said"
    # shellcheck disable=SC2016
    as_owner "$2" sh -c 'if [ -d "$1" ]; then exec 7<"$1"; else exec 7<>"$1"; fi
        flock "$2" 7 || { echo held; exit 1; }
        [ -d "$1" ] || printf "%s\n" "$3" >&7
        echo had
        exec cat >/dev/null' sh "$2" "$3" "process $$ ($({ tr '\0' ' ' <"/proc/$$/cmdline"; } 2>/dev/null | sed 's/ $//'))" \
        <"$hold_pipes/until" >"$hold_pipes/said" 2>/dev/null 8>&- 9>&- &
    eval "hold_$1=$!"
    eval "exec $1>\"\$hold_pipes/until\""
    IFS= read -r hold_said <"$hold_pipes/said" || hold_said=''
    rm -rf -- "$hold_pipes"
    [ "$hold_said" = had ]
}

# Lets the lock over FD go, where it has one, and waits until it is gone.
let_go() {
    eval "let_go_of=\${hold_$1-}; hold_$1=; exec $1>&-"
    [ -z "$let_go_of" ] || wait "$let_go_of" || :
}
