# A scratch clone of the commands in $room, with a stand-in for rt that takes its time, proves nothing, says what a good
# run says, keeps a list of its calls, and puts the program in its place. Sourced by the suite.
room=$(mktemp -d)
stands_on=$(needed touches | cut -d ' ' -f 1 | xargs)
trap 'rm -rf "$room"' EXIT
clone=$room/clone
mkdir -p "$clone/tests" "$room/bin" "$room/tmp"
tar -c --exclude='crates/*/out' run install crates crates.txt | tar -x -C "$clone"
cp -a tests/prove.sh "$clone/tests"
cat > "$room/bin/rt" << RT
#!/bin/bash
echo "\$1" >> $room/calls
case \$1 in
    version) echo a stand-in ;;
    run)
        echo \$\$ > $room/prover
        mktemp > /dev/null
        [ "\$(stat -c %a "\$TMPDIR")" = 711 ] || { echo "nobody cannot reach \$TMPDIR"; exit 1; }
        sleep "\$(cat $room/seconds)"
        for crate in $stands_on; do
            [ \$crate != touches ] || [ ! -e $room/broken ] || { echo "logic=not-proved functions=1"; exit 1; }
            echo "crate \$crate: modules loaded=0 checked=1"
            echo "logic=proved functions=1"
        done
        mkdir -p out && cp $PWD/$touches out/touches ;;
esac
RT
chmod +x "$room/bin/rt"

# cloned COMMAND..: the command on this path, its temporary files in the room
cloned() { PATH=$room/bin:$PATH TMPDIR=$room/tmp "$@"; }
asked() { grep -c "^$1$" "$room/calls"; }

eight_at_once() {
    local i pids=
    echo 2 > "$room/seconds"
    for i in {1..8}; do cloned "$clone/run" $heat > "$room/out.$i" 2> "$room/err.$i" & pids+=" $!"; done
    for i in $pids; do wait "$i" || { echo "status $? of one"; return 1; }; done
    for i in {1..8}; do same examples/heat.out "$room/out.$i" || return; done
    [ "$(asked run)" -eq 1 ] || { echo "$(asked run) proofs, not 1"; return 1; }
    [ "$(cat "$room"/err.* | grep -c "waiting for it")" -eq 7 ] || { echo "not seven say that they wait"; return 1; }
}
first_screen() {
    local all
    all=$(wc -w <<< "$stands_on")
    cat "$room"/err.* | grep -v "waiting for it" > $build/screen
    grep -qx "0 of $all crates of touches are proved; proving $all, which may take about [0-9]* min" $build/screen &&
        grep -qx "1 of $all: algebra ([0-9]* s)" $build/screen && grep -qx "$all of $all: touches ([0-9]* s)" $build/screen &&
        [ "$(wc -l < $build/screen)" -eq $((all + 1)) ] || { cat $build/screen; return 1; }
}
not_again() {
    rm "$room/calls"
    cloned "$clone/run" $heat > "$room/out" 2> "$room/err" && same examples/heat.out "$room/out" || return
    [ ! -s "$room/err" ] && [ "$(sort -u "$room/calls")" = version ] || { cat "$room/err" "$room/calls"; return 1; }
}
again_when_changed() {
    echo "// changed" >> "$clone/crates/touches/src/main.rt"
    rm "$room/calls"
    echo 0 > "$room/seconds"
    cloned "$clone/run" $heat > "$room/out" 2> "$room/err" && [ "$(asked run)" -eq 1 ]
}
not_proved() {
    touch "$room/broken"
    echo "// changed again" >> "$clone/crates/touches/src/main.rt"
    cloned "$clone/run" $heat > "$room/out" 2> "$room/err"
    local status=$?
    rm "$room/broken"
    [ $status -eq 1 ] && [ ! -s "$room/out" ] && grep -q "logic=not-proved" "$room/err" && grep -q "^not proved; " "$room/err"
}

# killed SIGNAL: a run that is killed while it proves leaves no temporary file and no prover
killed() {
    local runs i
    echo 60 > "$room/seconds"
    rm -f "$room/prover"
    PATH=$room/bin:$PATH TMPDIR=$room/tmp "$clone/run" $heat > /dev/null 2>&1 & runs=$!
    for i in {1..50}; do [ -s "$room/prover" ] && break; sleep 0.1; done
    sleep 0.3
    [ -n "$(ls "$room/tmp")" ] || { echo "it does not prove in a folder of its own"; kill $runs; return 1; }
    kill "-$1" $runs
    wait $runs 2> /dev/null
    for i in {1..50}; do
        [ -z "$(ls "$room/tmp")" ] && ! kill -0 "$(cat "$room/prover")" 2> /dev/null && return
        sleep 0.1
    done
    echo "left: $(ls "$room/tmp") $(ps -o pid=,args= -p "$(cat "$room/prover")")"
    return 1
}
without_kit() {
    local path
    path=$(tr : '\n' <<< "$PATH" | while read -r one; do [ -x "$one/rt" ] || echo "$one"; done | paste -sd :)
    PATH=$path "$clone/run" $heat 2> "$room/err"
    [ $? -eq 1 ] && grep -q "Rattle kit" "$room/err" && grep -q "Linux on x86-64" "$room/err"
}
