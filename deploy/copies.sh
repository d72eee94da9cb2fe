# What backup, restore, verify, health and others have in common: they read this file, and it isn't run by itself.

fail() {
    echo "$tool: $*" >&2
    exit 1
}

# The comment at the top of the script, which says how it is used.
usage() {
    sed -n '2,/^[^#]/s/^# \{0,1\}//p' "$0"
    exit "$1"
}

# The program: the one that --program names, the one that tools/install put beside these scripts, or that of the checkout.
find_program() {
    [ -n "$program" ] || program=$here/../../../bin/office
    [ -x "$program" ] || program=$here/../crates/office_program/out/office_program
    [ -x "$program" ] || fail "there is no program: name it by --program"
}

# The journal that stands beside an office's file: team.journal beside team.db.
journal_beside() {
    case $1 in
        *.db) echo "${1%.db}.journal" ;;
        *) echo "$1.journal" ;;
    esac
}

# The value of a setting in a file, without its quotes: the last one, as systemd takes it. Fails where the file has none.
setting() {
    [ -r "$2" ] && grep -q "^[[:space:]]*$1[[:space:]]*=" "$2" || return 1
    sed -n "s/^[[:space:]]*$1[[:space:]]*=[[:space:]]*//p" "$2" | tail -n 1 |
        sed "s/[[:space:]]*\$//; s/^\"\(.*\)\"\$/\1/; s/^'\(.*\)'\$/\1/"
}

# What the words of JOURNAL say: `--journal FILE`, or nothing of an office that has no journal, or `--without-journal` of one that goes on without.
take_journal() {
    journal=$(printf '%s\n' "$1" | sed 's/^--without-journal$//; s/^--journal[ =]*//')
    [ "$1" != --without-journal ] || without=yes
}

# The office's file and its journal, where they weren't named. The journal is the one that JOURNAL of the settings names, and else the one beside
# the file; it is empty where the settings or --without-journal say that there is none.
find_office() {
    settings=/etc/office/$name.env
    [ -z "$db" ] || settings=
    [ -n "$db" ] || db=/var/lib/office/$name/team.db
    [ -z "$without" ] || [ -z "$journal" ] || fail "--journal and --without-journal"
    [ -z "$without" ] && [ -z "$journal" ] || return 0
    if [ -n "$settings" ] && words=$(setting JOURNAL "$settings"); then
        take_journal "$words"
    else
        journal=$(journal_beside "$db")
    fi
}

# The token in a file, which has it alone or in the line of a header, with an end of line or without one.
token_of() {
    [ -f "$1" ] && [ -r "$1" ] && tr -d '\r' <"$1" | sed 's/^[Aa]uthorization: *[Bb]earer *//; s/[[:blank:]]*$//'
}

# The time, as names have it: they sort by it.
stamp() {
    date -u +%Y%m%dT%H%M%SZ
}

# The files of FOLDER that are named after PREFIX and a time of more than DAYS days ago, an office's file before its journal.
older_files() {
    before=$(date -u -d "$3 days ago" +%Y%m%dT%H%M%SZ)
    as_owner "$1/." find "$1" -maxdepth 1 -type f -name "$2-????????T??????Z*" -printf '%f\n' |
        LC_ALL=C awk -v at=$((${#2} + 2)) -v before="$before" 'substr($0, at, 16) < before && substr($0, at + 16) ~ /^(\.db)?(-wal)?$|^\.journal$/' |
        LC_ALL=C sort
}

# Removes them, and says so.
remove_older() {
    older_files "$@" | while IFS= read -r file; do
        as_owner "$1/$file" rm -f -- "$1/$file"
        echo "$1/$file: removed, older than $3 days"
    done
}

# The file under which an office that stood at FILE is set aside at TIME: team-TIME.db of team.db.
aside_of() {
    case $1 in
        *.db) echo "${1%.db}-$2.db" ;;
        *) echo "$1-$2" ;;
    esac
}

# The processes that have FILE open, whatever its name is to them, one to a line.
holders() {
    find -L /proc/[0-9]*/fd -maxdepth 1 -inum "$(stat -c %i -- "$1")" -printf '%D %p\n' 2>/dev/null |
        awk -v device="$(stat -c %d -- "$1")" '$1 == device { split($2, parts, "/"); print parts[3] }' | sort -u
}

# Whoever asks has to see those processes: the owner of FILE, or root.
sees_holders() {
    [ "$(id -u)" -eq 0 ] || [ "$(stat -c %u -- "$1")" -eq "$(id -u)" ] || fail "run it as root, or as the owner of $1"
}

# Lets one of backup, restore and verify at a time go on for each office, as long as this runs. The lock is that of the file FILE.lock, over the
# descriptor 9: no program that goes on behind this may have it.
take_lock() {
    command -v flock >/dev/null 2>&1 || fail "there is no flock here (package util-linux)"
    [ "$(id -u)" -ne 0 ] || power_over "$(dirname -- "$1")" >/dev/null || fail "nothing was done"
    hold 9 "$1.lock" --nonblock && return
    [ "$hold_said" = held ] || fail "the lock $1.lock can't be made or read"
    # what is written there may be of one that has ended
    holder=$(read_out "$1.lock" 2>/dev/null | sed -n '1s/^process \([0-9][0-9]*\) (.*/\1/p')
    if [ -n "$holder" ] && [ -d "/proc/$holder" ]; then
        holder=$(read_out "$1.lock" 2>/dev/null | head -n 1 | head -c 400 | tr -cd ' -~')
    else
        holder="a process that can't be seen from here"
    fi
    fail "$holder has the lock of this office, $1.lock: nothing was done"
}

# The sizes of these files together. One that isn't there has none.
bytes_of() {
    stat -c %s -- "$@" 2>/dev/null | awk '{ all += $1 } END { printf "%.0f\n", all }'
}

# How many bytes are free where FILE is.
room_at() {
    df -P -B 1 -- "$1" 2>/dev/null | awk 'NR == 2 { print $4 }'
}

# Milliseconds of a clock.
now() {
    echo $(($(date +%s%N) / 1000000))
}

# A desk at FILE with JOURNAL, or without one where that is empty, which answers what it reads. An opening sets right what a crash left. A file that
# has a journal is opened without only where --without-journal was spelt out, as the unit has it, and from then on only so.
desk() {
    if [ -n "$2" ]; then
        as_owner "$1" "$program" desk "$1" --journal "$2"
    else
        as_owner "$1" "$program" desk "$1" ${without:+--without-journal}
    fi
}

# Whether what the program said is of the files that it looked at, and not of this machine.
is_of_files() {
    case ${1##*: } in memory | full | disk | read | write | busy | too-large | too-long | too-many-reads) return 1 ;; esac
}

# How many whole lines a file has.
lines_of() {
    read_out "$1" | wc -l
}

# Whether FILE opens as an office, is the one that JOURNAL tells, and is sound. It says why not. What stands in its log is then in FILE, and the
# log is gone. Sets verified to what `verify` said, and differs where the two aren't one office. JOURNAL is empty where the office has none.
opens() {
    verified='' differs=''
    lines=0
    [ -z "$2" ] || lines=$(lines_of "$2")
    if ! said=$(desk "$1" "$2" </dev/null 2>&1); then
        [ -z "$2" ] || ! is_of_files "$said" || differs=$said
        echo "$tool: $1 doesn't open as an office${2:+ with the journal $2}: $said" >&2
        return 1
    fi
    if [ -n "$2" ]; then
        # an opening cuts off what a crash leaves of a line: where whole lines went with it, they weren't sealed any more
        if [ "$(lines_of "$2")" -lt "$lines" ]; then
            differs="lines that aren't sealed"
            echo "$tool: of the $lines lines of $2 some weren't sealed: a hand or its disk changed it" >&2
            return 1
        fi
        if ! verified=$(as_owner "$1" "$program" verify "$1" "$2" 2>&1); then
            ! is_of_files "$verified" || differs=$verified
            echo "$tool: $1 opens, and isn't the office that $2 tells: $verified" >&2
            return 1
        fi
    fi
    if [ -n "$look" ]; then
        # a copy of the copy and of its journal, so that no request changes what is kept
        look_journal=${2:+$1.look.journal}
        copy_to "$1" "$1.look" || return 1
        [ -z "$2" ] || copy_to "$2" "$look_journal" || return 1
        said=$(desk "$1.look" "$look_journal" <"$look" 2>&1) || said="$said (status $?)"
        as_owner "$1" rm -f -- "$1.look" "$1.look-wal" "$1.look-shm" "$1.look.journal"
        said=$(printf '%s\n' "$said" | sed '/^office: without its journal, /d')
        if [ -z "$said" ] || printf '%s\n' "$said" | grep -qv '^{"answer":"done"'; then
            echo "$tool: $1 opens, but what --look asks is answered otherwise: $said" >&2
            return 1
        fi
    fi
    if command -v sqlite3 >/dev/null 2>&1; then
        said=$(as_owner "$1" sqlite3 -readonly "$1" 'pragma integrity_check' 2>&1) || :
        as_owner "$1" rm -f -- "$1-shm"
        if [ "$said" != ok ]; then
            echo "$tool: $1 opens, but sqlite3 says of it: $said" >&2
            return 1
        fi
    else
        echo "$tool: there is no sqlite3 here, so nothing but the office looked at $1" >&2
    fi
    as_owner "$1" rm -f -- "$1-wal"
}

# The last line of a journal that the office itself wrote an event to, as `history` tells it: its number, and what it was. Behind it may stand
# what an opening or an end adds, which the office may come not to have: it is copied between a line and its change.
last_event() {
    lines=$(lines_of "$1")
    as_owner "$1" "$program" history "$1" --json --since $((lines > 9 ? lines - 9 : 1)) 2>/dev/null | grep -v '"event":"strike"' | tail -n 1 |
        sed -n 's/.*"event":"\([a-z]*\)".*"line":\([0-9]*\).*/\2 \1/p'
}

# The number and the seal of that line, as `verify --seal` takes them.
last_seal() {
    number=$(last_event "$1" | cut -d ' ' -f 1)
    seal=$(read_out "$1" | sed -n "${number:-1}s/.*\"seal\":\"\([0-9a-f]*\)\"}\$/\1/p")
    [ -n "$number" ] && [ -n "$seal" ] && echo "$number:$seal"
}

# Writes down for deploy/health what was found of a copy last: that its journal tells it, or what differs.
write_outcome() {
    printf '%s %s\n' "$(stamp)" "$2" | put_at "$1" 600
}

# Writes a seal down with the time and what it is of.
write_seal() {
    printf '%s %s %s\n' "$(stamp)" "$2" "$3" | append_to "$1"
}

# How many whole lines two files have in common, from the first one on.
lines_in_common() {
    said=$(read_out "$1" | { exec 3<&0; read_out "$2" | LC_ALL=C cmp - /dev/fd/3 2>&1; }) || :
    bytes=$(printf '%s\n' "$said" | sed -n 's/.* differ: [a-z]* \([0-9]*\), line [0-9]*$/\1/p')
    if [ -n "$bytes" ]; then
        bytes=$((bytes - 1))
    else
        bytes=$(stat -c %s -- "$1" "$2" | sort -n | head -n 1)
    fi
    read_out "$1" | head -c "$bytes" | wc -l
}
