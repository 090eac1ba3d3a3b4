#!/usr/bin/env bash
# status.sh PROGRAM WORDS..: runs a program of this project and ends with the status that it gives. A Rattle program itself always ends with 0; it writes its status, a
# line 0 or 1, to descriptor 3. Where it wrote none, that is said and the status is 1. Input, output and signals are the program's own; a closed input or output stays closed.
set -u
program=("$@")
name=${LICHENOAR_NAME:-${1##*/}}

# what is closed is kept for the program; in here it is /dev/null, so that no pipe takes its place
input=open output=open
{ : 6<&0; } 2> /dev/null || { exec < /dev/null && input=closed; }
{ : 6>&1; } 2> /dev/null || { exec > /dev/null && output=closed; }

# 4: a pipe, both ends at once. 5: standard error, which this shell would use for words of its own about a program that crashed
exec 4<> <(:) 5>&2 2> /dev/null

# a program in the background does not hear an interrupt, so it is ended by hand
signalled=
end() {
    signalled=$1
    kill -TERM "$child"
}
(
    [ "$input" = open ] || exec <&-
    [ "$output" = open ] || exec >&-
    exec "${program[@]}"
) <&0 2>&5 3>&4 4<&- 5>&- &
child=$!
for signal in INT TERM HUP; do
    # shellcheck disable=SC2064
    trap "end $signal" "$signal"
done
wait "$child"
ended=$?
while kill -0 "$child"; do
    wait "$child"
    ended=$?
done
if [ -n "$signalled" ]; then
    trap - "$signalled"
    kill -s "$signalled" $$
fi

said='' rest=''
if read -r -t 0 -u 4; then IFS= read -r -t 1 -u 4 said; fi
if read -r -t 0 -u 4; then IFS= read -r -t 1 -u 4 rest; fi
case $ended:$said:$rest in
0:0: | 0:1:) exit "$said" ;;
0::) why='it wrote none to descriptor 3' ;;
0:*) why='what it wrote to descriptor 3 is neither 0 nor 1' ;;
141:*) why='nobody reads its output any more' ;;
*) why="it ended with $ended" ;;
esac
printf '%s: no status: %s\n' "$name" "$why" >&5
exit 1
