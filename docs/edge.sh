#!/bin/sh
# The system's edge, by the built program: what is at the output's path after links that end well and
# links that don't. Run by hand, as a user without privileges (root may write into any folder):
#
#     cd crates/golink && rt run -- help >/dev/null; sh ../../docs/edge.sh "$PWD/out/golink" "$PWD/data/m.o"
#
# It works in a new folder, prints a line for each case, and ends with status 1 where one is wrong.

golink=$1
object=$2
work=$(mktemp -d) || exit 2
cd "$work" || exit 2
wrong=0

# case NAME COMMAND..: the command has to succeed.
case_is() {
    name=$1
    shift
    if "$@"; then
        echo "ok      $name"
    else
        echo "WRONG   $name"
        wrong=1
    fi
}

links() { "$golink" link -o "$1" "$object" >/dev/null 2>&1; }
fails() { ! "$@"; }
runs() { "$1"; test $? -eq 0; }
# no new file is left beside the outputs
is_clean() { test -z "$(find "$work" -name '.golink-*')"; }
is_same() { cmp -s "$1" "$2"; }

case_is "a new program is written and runs" links prog
case_is "it can be run" runs ./prog
cp prog whole

# A program that runs: a copy of sleep under the output's name.
cp "$(command -v sleep)" busy
./busy 5 &
busy=$!
case_is "a program that runs is replaced" links busy
case_is "the new one is whole" is_same busy whole
case_is "the old one goes on" kill -0 "$busy"
kill "$busy"
wait "$busy" 2>/dev/null

# A folder that can't be written.
mkdir closed
echo old >closed/prog
chmod 555 closed
case_is "in a folder that can't be written the link fails" fails links closed/prog
case_is "and the old file is whole" grep -q old closed/prog
case_is "a new file there fails too" fails links closed/new
chmod 755 closed

# A file that can't be written, in a folder that can: it is replaced, as Go's linker does.
echo old >locked
chmod 444 locked
case_is "a file that can't be written is replaced" links locked
case_is "and is whole" is_same locked whole

# A path below a file.
case_is "below a file the link fails" fails links prog/below
case_is "and the file is whole" is_same prog whole

# Links.
ln -s prog link
case_is "through a link the program is written" links link
case_is "the link stays" test -L link
case_is "its target is whole" is_same prog whole
ln -s missing dangling
case_is "through a link to nothing too" links dangling
case_is "which makes the file" is_same missing whole
ln -s loop loop
case_is "a link to itself fails" fails links loop

# What is no regular file.
case_is "a device is written in place" links /dev/null
case_is "and stays a device" test -c /dev/null
mkfifo pipe
cat pipe >taken &
case_is "a pipe is written in place" links pipe
wait $!
case_is "and its reader has the program" is_same taken whole
case_is "a folder is not replaced" fails links closed

# Blanks at the ends of a path.
case_is "blanks belong to the path" links " blank "
case_is "and are kept" test -f " blank "

# A full disk: no file may grow past 512 bytes.
cp prog full
(
    trap '' XFSZ
    ulimit -f 1
    "$golink" link -o full "$object" >/dev/null 2>&1
)
case_is "where the disk is full the link fails" test $? -ne 0
case_is "and the old program is whole" is_same full whole

# Standard output is closed: a link prints nothing there.
"$golink" link -o closed_out "$object" >&- 2>/dev/null
case_is "without standard output it is written" is_same closed_out whole

case_is "nothing is left beside the outputs" is_clean
cd / && rm -rf "$work"
exit $wrong
