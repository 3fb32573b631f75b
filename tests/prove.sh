# What ./run and ./install share: a crate is proved by one process of a clone at a time, and what is proved is not
# asked for again. Sourced; the working folder becomes the repository's root. All that is said goes to standard error.
cd "$(dirname "${BASH_SOURCE[0]}")/.." || exit 1

# program NAME: target/bin/NAME is there, proved and compiled of just the files that are here now
program() { made "target/bin/$1" "$1" "out/$1" run; }

# archive NAME: the same of target/staticlib/libNAME.a: of the static library NAME, or of NAME_c over the library NAME
archive() {
    local crate=$1
    [ ! -d "crates/$1_c" ] || crate=$1_c
    made "target/staticlib/lib$1.a" "$crate" "out/lib$crate.a" lib
}

# made FILE CRATE OUT COMMAND: FILE is there, what rt's COMMAND makes as OUT in the crate's folder
made() {
    local file=$1 crate=$2 out=$3 command=$4 stamp=target/made/${1##*/} before status
    command -v rt > /dev/null || { no_kit; return 1; }
    up_to_date "$file" "$stamp" && return
    mkdir -p target/made "${file%/*}" || return
    exec 9> target/made/lock || return
    flock -n 9 || { echo "another command is proving in this clone: waiting for it" >&2; flock 9; }
    before=$(sources)
    up_to_date "$file" "$stamp" ||
        { prove "$crate" "$command" && cp -f "crates/$crate/$out" "$file" && stamped "$file" "$before" > "$stamp"; }
    status=$?
    exec 9>&-
    return $status
}

# stamped FILE SOURCES: what is kept of a file that was made, where nothing was changed meanwhile
stamped() {
    [ -s "$1" ] || { echo "there is no $1" >&2; return 1; }
    [ "$(sources)" = "$2" ] || { echo "files of crates/ were changed while they were proved: once more" >&2; return 1; }
    echo "$2 $(sha256sum < "$1")"
}

# sources: the kit and every file that is proved, in one line
sources() {
    {
        rt version < /dev/null # it takes no folder there
        find crates crates.txt -regex 'crates/[^/]*/out' -prune -o -type f -print0 | sort -z | xargs -0 sha256sum
    } | sha256sum
}
up_to_date() { [ -s "$1" ] && [ -s "$2" ] && [ "$(sources) $(sha256sum < "$1")" = "$(cat "$2")" ]; }

no_kit() {
    cat >&2 << 'SAY'
There is no command rt here. It comes with the Rattle kit, the compiler and prover of the language that this engine is
written in, for Linux on x86-64. Put the kit's rt on the path; or use a folder that ./install made where the kit is.
SAY
}

# needed CRATE: every crate that it is proved over, and itself last, a line each, with those that it names
needed() {
    awk -v crate="$1" '
        function take(name, over, i, n) {
            if (name in taken || !(name in all)) return
            taken[name]
            n = split(all[name], over, " ")
            for (i = 1; i <= n; i++) take(over[i])
            print name, all[name]
        }
        /^[a-z]/ { name = $0; sub(/[ :].*/, "", name); sub(/^[^:]*: */, ""); all[name] = $0 }
        END { take(crate) }' crates.txt
}

# left CRATE: those of them without a proof as new as their files and as what they stand on, each with a guess of its
# seconds: one for a function, and ten
left() {
    local name over one mark stale=" "
    needed "$1" | while read -r name over; do
        for one in $over; do [[ $stale == *" $one "* ]] && break; one=; done
        # what rt leaves of a library, of a program and of a static library
        mark=$(ls -t "crates/$name/out/"{rlib/stamp,"$name.stamp","lib$name.a"} 2> /dev/null | head -n 1)
        [ -n "$one" ] || [ -z "$mark" ] ||
            [ -n "$(find "crates/$name" -path "crates/$name/out" -prune -o -type f -newer "$mark" -print -quit)" ] || continue
        stale+="$name "
        echo "$name $((10 + $(cat "crates/$name"/src/*.rt | grep -cE '(^| )fn ')))"
    done
}

# progress LEFT: a line for each crate that the prover's lines say is proved
progress() {
    local line crate= since=$SECONDS n=0
    while IFS= read -r line; do
        case $line in
            "crate "*": modules "*) crate=${line#crate } crate=${crate%%:*} ;;
            "logic=proved "*)
                echo "$((++n)) of $1: $crate ($((SECONDS - since)) s)"
                since=$SECONDS ;;
        esac
    done
}

# prove CRATE COMMAND: rt's command in the crate's folder, with a line for each crate that it says is proved, and its last
# lines where it fails. A watch removes its temporary files, and ends it where this shell is gone; till then it holds the
# lock, too.
prove() {
    local log=target/made/log folder prover all left minutes status
    all=$(needed "$1" | wc -l)
    left=$(left "$1" | awk '{ n++; s += $2 } END { print n + 0, int(s / 60 + 1) }')
    minutes=${left#* } left=${left% *}
    if [ "$left" -eq 0 ]; then
        echo "all $all crates of $1 are proved: compiling" >&2
    else
        echo "$((all - left)) of $all crates of $1 are proved; proving $left, which may take about $minutes min" >&2
    fi
    folder=$(mktemp -d "${TMPDIR:-/dev/shm}/netxurbil.XXXXXX" 2> /dev/null || mktemp -d) || return
    # rt may run a program as nobody, who has to reach what is in there
    chmod 711 "$folder" && mkfifo "$folder/said" || return
    (cd "crates/$1" && TMPDIR=$folder exec setsid rt "$2") < /dev/null > "$folder/said" 2>&1 &
    prover=$!
    setsid bash -c 'while kill -0 $1 && kill -0 $2; do sleep 0.2; done; kill -- -$2; rm -rf "$3"' \
        watch $$ $prover "$folder" > /dev/null 2>&1 9>&- &
    tee $log < "$folder/said" 9>&- | progress "$left" >&2 9>&- &
    wait $prover; status=$?
    wait $!
    [ $status -eq 0 ] || { tail -n 20 $log >&2; echo "not proved; $log has all that was said" >&2; }
    return $status
}
