#!/bin/sh
# Runs the built program on files and pipes, and compares what it puts out and its status with what docs/TOOL.md says.
#
#     checks/program.sh [PROGRAM]
#
# PROGRAM is crates/plchost/out/plchost, which a plain `rt ci` leaves there, unless another is named, by its whole path or one
# from the repository's top. The last line is `N passed, M failed`, and the status is 0 only where M is 0. It works in a
# folder of its own, which it removes.
cd "$(dirname "$0")/.." || exit 2
program=${1:-crates/plchost/out/plchost}
case $program in
/*) ;;
*) program=$PWD/$program ;;
esac
data=$PWD/crates/plchost/data
checks=$PWD/checks
if [ ! -x "$program" ]; then
    echo "there is no program at $program"
    echo "0 passed, 1 failed"
    exit 1
fi
room=$(mktemp -d) || exit 2
trap 'rm -rf "$room"' EXIT
trap 'exit 2' HUP INT TERM
cd "$room" || exit 2
passed=0
failed=0

# The program by these words, for 20 seconds at most.
plchost() {
    timeout 20 "$program" "$@"
}

# case_is NAME STATUS TEXT: what is wanted of the run that comes next. TEXT is as printf takes it.
case_is() {
    name=$1
    wanted_status=$2
    printf "$3" >wanted
    : >got
    : >complaint
}

# judge STATUS: compares the file `got`, and the status that the run ended with.
judge() {
    if [ "$1" -eq "$wanted_status" ] && cmp -s wanted got && [ ! -s complaint ]; then
        passed=$((passed + 1))
    else
        failed=$((failed + 1))
        echo "FAILED: $name: status $1, wanted $wanted_status"
        cmp wanted got 2>&1
        head -c 200 complaint
    fi
}

# runs NAME STATUS TEXT INPUT WORD..: a run by these words on the file INPUT.
runs() {
    case_is "$1" "$2" "$3"
    input=$4
    shift 4
    plchost "$@" <"$input" >got 2>complaint
    judge $?
}

# refused NAME WORD..: a run by words that are no command's.
refused() {
    about=$1
    shift
    runs "$about" 2 'words refused\n' one "$@"
}

# spaces COUNT: so many spaces.
spaces() {
    head -c "$1" /dev/zero | tr '\0' ' '
}

cp "$data/p" p
printf '[type P [simple uint 8 a] [simple uint 16 b]]' >record
printf '[type P [simple uint 8 a]]' >byte
printf '[type P [simple uint 12 a]]' >other_form
printf '\001\000\002' >one
printf '\001\002' >two
printf '\001\000\002\377\377\377\001' >three
: >empty
cat >script <<'END'
table 2 8 1 64 60000 60000
ask 1 0
submit 1 1 0 1000 AA
send
frame 00050001BB
collect 1 1
END
answers='granted 1\nstarted 1 1\nsent 1 00050001aa\nended 1 done\ndone 187\nentries 5\n'

# ---- what the README shows

runs 'a value by the stored description' 0 'a = 1\nb = 2\n\n' one decode p P
runs 'a value' 0 'a = 1\nb = 2\n\n' one decode record P
runs 'a script' 0 "$answers" script replay

# ---- values, and each status that files and pipes can bring

runs 'no value' 0 '' empty decode record P
runs 'a description outside the form' 1 'description refused 1:1 NotBuilt\n' one decode other_form P
runs 'an empty description' 1 'description refused 1:1 NotBuilt\n' one decode empty P
runs 'a file that there is not' 3 'file fault\n' one decode nothing P
runs 'a folder in place of a file' 3 'file fault\n' one decode . P
runs 'another type' 12 'type refused\n' one decode record Q
runs 'a value that is cut off' 7 'a = 1\nb = 2\n\na = 255\nb = 65535\n\ntruncated 8\n' three decode record P
runs 'a folder as the input' 4 'read fault\n' . decode record P
runs 'a folder as a script' 4 'read fault\n' . replay

# ---- words

refused 'no word'
refused 'too few words' decode
refused 'too few words behind a file' decode record
refused 'too many words' decode record P P
refused 'too many words behind replay' replay script
refused 'another command' frob
refused 'print without a file' print
refused 'print of two files' print record record
refused 'an option to print' print -record
refused 'check without a file' check
refused 'check of two files' check record record
refused 'an option behind check' check record --x=1
refused 'a command in capitals' Decode record P
refused 'an option' --help
refused 'an option before a command' --version replay
refused 'an empty file name' decode '' P
refused 'an empty type name' decode record ''
refused 'an option as a type' decode record -P
refused 'an option as a file' decode -record P
refused 'a word that is not text' decode record "$(printf 'P\377')"
refused 'a command that is not text' "$(printf 'replay\377')"

# ---- descriptions

printf "[type V [simple uint 8 a][virtual uint 32 v 'a+a*2']]\n" >sums
printf '[type W [simple uint 8 a] [manual uint 8 b]]\n' >left_out
printf '// a record\n[type P [simple uint 0x10 a]] /* of one field */' >commented
printf '[type P [simple uint 8 a]' >open_type
printf '[type P /* x' >open_comment
printf '] $' >stray
runs 'a printed description' 0 '[type P\n  [simple uint 8 a]\n  [simple uint 16 b]\n]\n' one print record
runs 'printed expressions' 0 "[type V\n  [simple uint 8 a]\n  [virtual uint 32 v 'a + (a * 2)']\n]\n" one print sums
runs 'a printed description of nothing' 0 '' one print empty
runs 'a word that is left out' 1 'description refused 1:28 LeftOut\n' one print left_out
runs 'the end inside a definition' 1 'description refused 1:26 EndOfText\n' one print open_type
runs 'an open comment' 1 'description refused 1:9 OpenComment\n' one print open_comment
runs 'a stray byte before a fault of the grammar' 1 'description refused 1:3 Character\n' one print stray
runs 'a description without a tree, to decode' 1 'description refused 1:26 EndOfText\n' one decode open_type P
runs 'a comment and another width in the first form' 0 'a = 258\n\n' two decode commented P
runs 'a file to print that there is not' 3 'file fault\n' one print nothing

# ---- rules

printf '[type P [simple uint 8 a] [simple uint 8 a]]' >doubled
printf "[type X [simple uint 8 a] [virtual uint 8 b '1 / a']]" >divided
runs 'an accepted description' 0 'accepted\n' one check record
runs 'an accepted description of nothing' 0 'accepted\n' one check empty
runs 'a name that stands twice, to check' 1 'description refused 1:42 DoubledName\n' one check doubled
runs 'a name that stands twice, to print' 1 'description refused 1:42 DoubledName\n' one print doubled
runs 'a name that stands twice, to decode' 1 'description refused 1:42 DoubledName\n' one decode doubled P
runs 'a divisor that may be 0' 1 'description refused 1:48 DivisorMayBeZero\n' one check divided
runs 'a description without a tree, to check' 1 'description refused 1:26 EndOfText\n' one check open_type
runs 'a file to check that there is not' 3 'file fault\n' one check nothing
runs 'the description of modbus' 0 'accepted\n' one check "$checks/modbus.mspec"
runs 'the description of s7' 0 'accepted\n' one check "$checks/s7.mspec"

# printed PROTOCOL: what is printed of the protocol's description is printed as itself.
printed() {
    case_is "the description of $1, printed" 0 ''
    plchost print "$checks/$1.mspec" >"printed_$1" 2>complaint && plchost print "printed_$1" >got 2>>complaint
    status=$?
    cp "printed_$1" wanted
    [ -s wanted ] || status=1
    judge "$status"
}
printed modbus
printed s7

# ---- scripts

printf 'table 2 8 1 64 60000 60000\n' >one_line
printf 'table 2 8 1 64 60000 60000\nask 1 0\nsend\nsends\nsend\n' >refused_line
runs 'an empty script' 10 'line refused 1\n' empty replay
runs 'a script of one line' 0 'entries 0\n' one_line replay
runs 'a line that is none' 10 'granted 1\nnothing\nline refused 4\n' refused_line replay

# What docs/HOST.md shows.
cat >waiter <<'END'
table 2 8 1 64 100 50
ask 1 0
ask 2 10
poll 2 2
release 1 1 20
poll 2 2
tick 119
tick 120
END
cat >lease_ends <<'END'
table 2 8 1 64 100 50
ask 1 0
submit 1 1 0 1000 AA
send
tick 100
frame 00050001BB
collect 1 1
END
cat >expires <<'END'
table 2 8 1 64 60000 60000
ask 1 0
submit 1 1 0 1000 AA
send
tick 999
tick 1000
frame 00050001BB
collect 1 1
END
cat >stops <<'END'
table 2 8 1 64 60000 60000
ask 1 0
submit 1 1 0 1000 AA
shutdown 1
shutdown 1
collect 1 1
END
{ echo 'table 2 8 1 64 60000 60000' && awk 'BEGIN { for (i = 0; i < 65; i++) print "ask 1 0" }' && echo 'poll 1 1'; } >worn
waits=$(awk 'BEGIN { for (i = 2; i <= 64; i++) printf "waiting %d %d\\n", i, i - 2 }')
runs 'a waiter that is granted' 0 'granted 1\nwaiting 2 0\nwaiting 0\nreleased\nheld\nticked 0 0 0\nticked 0 1 0\nentries 4\n' waiter replay
runs 'a lease that ends with a live request' 0 'granted 1\nstarted 1 1\nsent 1 00050001aa\nticked 1 1 0\nlate 1\nlease gone\nentries 6\n' lease_ends replay
runs 'a request that expires' 0 'granted 1\nstarted 1 1\nsent 1 00050001aa\nticked 0 0 0\nticked 1 0 0\nlate 1\nexpired\nentries 6\n' expires replay
runs 'a worn journal' 0 "granted 1\n${waits}closed worn\nclosed worn\nentries 65\n" worn replay
runs 'a shutdown' 0 'granted 1\nstarted 1 1\nstopping\nclosed asked\nlost asked\nentries 4\n' stops replay

# ---- sizes

{ cat byte && spaces 1048550; } >longest
{ cat byte && spaces 1048551; } >too_long
runs 'a description of 1,048,576 bytes' 0 'a = 1\n\na = 0\n\na = 2\n\n' one decode longest P
runs 'a description of 1,048,577 bytes' 1 'description refused 1:1 TextTooLong\n' one decode too_long P
spaces 16777216 >input_limit
spaces 16777217 >past_limit
runs 'an input of 16,777,216 bytes' 10 'line refused 1\n' input_limit replay
runs 'an input of 16,777,217 bytes' 13 'input too long\n' past_limit replay

# ---- pipes

case_is 'an input in two pieces' 0 'a = 1\nb = 2\n\n'
{ printf '\001' && sleep 1 && printf '\000\002'; } | plchost decode record P >got 2>complaint
judge $?

case_is 'a script through pipes' 0 "$answers"
{ cat script | plchost replay 2>complaint && echo well >ended; } | cat >got
judge "$(if [ -e ended ]; then echo 0; else echo 1; fi)"

case_is 'an output of more than a pipe holds' 0 ''
awk 'BEGIN { for (i = 0; i < 30000; i++) printf "a = 0\n\n" }' >wanted
rm -f ended
{ head -c 30000 /dev/zero | { plchost decode byte P 2>complaint && echo well >ended; }; } | cat >got
judge "$(if [ -e ended ]; then echo 0; else echo 1; fi)"

mkfifo description || exit 2
case_is 'a named pipe as the file' 0 'a = 1\nb = 2\n\n'
{ spaces 200000 && cat record; } >padded
timeout 20 sh -c 'cat padded >description' &
plchost decode description P <one >got 2>complaint
judge $?
wait

# ---- an output that fails

if [ ! -c /dev/full ]; then
    echo "there is no full device here: its four cases are left out"
else
    for words in 'decode record P' 'print record' 'replay' 'frob'; do
        case_is "a full device, $words" 5 ''
        plchost $words <script >/dev/full 2>complaint
        judge $?
    done
fi

echo "$passed passed, $failed failed"
[ "$failed" -eq 0 ]
