#!/usr/bin/env bash
# Runs the watch program (`rt run` in crates/watch builds it) on whole inputs at the edges: where lines end, and how long they may be.
cd "$(dirname "${BASH_SOURCE[0]}")/.."
failed=0
same() {
    local wrote
    wrote=$(printf "$1" | crates/watch/out/watch)
    [ "$wrote" = "$(printf "$2")" ] || { failed=1; printf 'input %q: %q, not %q\n' "${1:0:60}" "$wrote" "$2"; }
}
many() { printf "%0$1d" 0 | tr 0 "$2"; }
same '' 'refused line 1 code 2\n'
same '\n' 'refused line 1 code 2\n'
same '(S;P)' 'windows 0 ticks 0\n'
same '(S;P)\n' 'windows 0 ticks 0\n'
same '(S;P)\n\n' 'refused line 2 code 14\n'
same '(S;P)\n5 S\n6 P\n' '5 6\nwindows 1 ticks 2\n'
same '(S;P)\n5 S\n6 P' '5 6\nwindows 1 ticks 2\n'
same '(S;P)\n5 S\r\n6 P\n' 'refused line 2 code 14\n'
same '(S;P)\n5 S\n6 P\n6 P\n7 P\n' '5 6\nrefused line 4 code 11\n'
same "$(many 1024 '(')" 'refused line 1 code 2\n'
same "$(many 1025 '(')" 'refused line 1 code 1\n'
same "S\n$(many 1022 1) S\n" 'refused line 2 code 10\n'
same "S\n$(many 1023 1) S\n" 'refused line 2 code 14\n'
same "S\n$(many 200000 1) S" 'refused line 2 code 14\n'
diff <(crates/watch/out/watch < examples/steps.log) examples/steps.out || failed=1
[ $failed = 0 ] && echo "all as expected"
exit $failed
