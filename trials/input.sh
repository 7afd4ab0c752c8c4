# What trials/report and trials/hall share, read with `. trials/input.sh` at the root by a trial that has built its program and has the name of it in $program.
. routines/bytes.sh
tried=0 failed=0

# the program, with ten seconds to end or so many as are given; the command, with all that it says; what came back is as expected
run() { timeout "${1:-10}" "target/bin/$program" || echo "status $?"; }
bench() { ./bench "$program" "$@" 2>&1 || echo "status $?"; }
is() {
    tried=$((tried + 1))
    [ "$came" = "$2" ] || { failed=$((failed + 1)); printf '%s: %s: came back %s\n' "$program" "$1" "$came"; }
}
ended() {
    [ $failed = 0 ] || { echo "$program: $failed of $tried answers are wrong"; exit 1; }
    echo "$program: ok, $tried answers"
}

h=$(digits h)
# H with the digits from place $1 (the first is 1) replaced by $2
changed() { printf %s "$h" | sed "s/^\(.\{$(($1 - 1))\}\).\{${#2}\}/\1$2/"; }

# nodes: while not .. not true do skip, with so many nots
deep() {
    awk -v n="$1" 'BEGIN {
        printf "2400000000000000"
        for (k = 1; k <= n; k++) printf "280%03X0000000000", k - 1
        printf "4000000000000000500%03X%03X0000000", n, n + 1 }'
}
# the longest image, 256 conditions and 1,024 nodes: 9,236 bytes of input
longest=0101004000000000$(printf %02048d 0)$(deep 1021)

# hostile FIRST TEXT: input that both programs answer alike; FIRST is a set or setting of H, and TEXT what is said of it with budget 100
hostile() {
    came=$(input "$1" 100 "$h" | run); is "H" "$2"
    came=$(input "$1" 100 "$h" | head -c 11 | run); is "11 bytes" "refused 16 at 0"
    came=$(run </dev/null); is "nothing" "refused 16 at 0"
    came=$(input "$1" 100 "$h" | head -c 19 | run); is "an image of 7 bytes" "refused 1 at 0"
    came=$(input "$1" 100 "$(changed 1 02)" | run); is "edition 2" "refused 2 at 0"
    came=$(input "$1" 100 "$(changed 3 7)" | run); is "7 options" "refused 3 at 0"
    came=$(input "$1" 100 "${h}00" | run); is "a byte too many" "refused 4 at 0"
    came=$(input "$1" 100 "$h" | head -c 119 | run); is "a byte too few" "refused 4 at 0"
    came=$(input "$1" 100 "$(changed 17 6)" | run); is "a condition of kind 6" "refused 5 at 0"
    came=$(input "$1" 100 "$(changed 73 60)" | run); is "a node of kind 24" "refused 6 at 3"
    came=$(input "$1" 100 "$(changed 153 540006)" | run); is "a throw of a boolean" "refused 7 at 8"
    came=$(input "$1" 100 "$(changed 201 48000A00A0)" | run); is "a sequence of one part twice" "refused 8 at 3"
    came=$(input "$1" 100001 "$h" | run); is "budget 100,001" "refused 10 at 0"
    came=$(input "$1" 4294967295 "$h" | run); is "the largest budget" "refused 10 at 0"

    # a byte less than the longest input, one more and two more
    came=$(input "$1" 100 "$longest" | head -c 9235 | run); is "9,235 bytes" "refused 4 at 0"
    came=$(input "$1" 100 "${longest}00" | run); is "9,237 bytes" "refused 4 at 0"
    came=$(input "$1" 100 "${longest}0000" | run); is "9,238 bytes" "refused 4 at 0"

    # endless input; input that cannot be read and a text that cannot be written are said on standard error, and nothing else is
    came=$( (input "$1" 100 "$longest"; cat /dev/zero) | run); is "the longest image and no end" "refused 4 at 0"
    came=$(run </dev/zero); is "zeros and no end" "refused 2 at 0"
    came=$(run 2>&1 </); is "a directory" "$program: the input cannot be read"
    came=$(input "$1" 100 "$h" | run 2>&1 >/dev/full); is "a full disk" "$program: the text cannot be written"

    # far too long, a pipe that stays open past the limit, in two parts, noise
    came=$(head -c 100000 /dev/zero | run); is "100,000 zero bytes" "refused 2 at 0"
    came=$( (head -c 9300 /dev/zero; sleep 12) | run); is "a pipe that stays open past the limit" "refused 2 at 0"
    came=$( (input "$1" 100 "$h" | head -c 50; sleep 1; input "$1" 100 "$h" | tail -c +51) | run); is "H in two parts" "$2"
    for k in 1 2 3 4 5 6 7 8; do
        tried=$((tried + 1))
        head -c $((k * 137)) /dev/urandom | run | grep -Eqx 'refused [0-9]+ at [0-9]+' ||
            { failed=$((failed + 1)); echo "$program: noise of $((k * 137)) bytes is not refused"; }
    done
}
