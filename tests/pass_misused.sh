#!/usr/bin/env bash
# A pass can't be copied, spent twice, let go unnoticed or forged. The compiler refuses each of these before the prover
# is asked, so no must-fail edit can show it. Here the pass's own source stands in a small repository, over a line of one
# number, and a user's crate tries each misuse: the right use is proved, each misuse is refused by the error named.
set -euo pipefail
cd "$(dirname "$0")/.."
room=$(mktemp -d)
trap 'rm -rf "$room"' EXIT

mkdir -p "$room"/crates/{lines,sheet,user}/src
printf 'lines:\nsheet: lines\nuser: sheet lines\n' >"$room/crates.txt"
printf '#[derive(Clone, Copy)]\npub struct Line {\n    pub a: i32,\n}\n' >"$room/crates/lines/src/lib.rt"
cp crates/sheet/src/pass.rt "$room/crates/sheet/src/pass.rt"
printf 'mod pass;\n\npub use pass::Pass;\n' >"$room/crates/sheet/src/lib.rt"

# try BODY ERROR: a function of this body; ERROR is what must refuse it, or none.
try() {
    printf 'use lines::Line;\nuse sheet::Pass;\n\npub fn user(pass: Pass, one: &mut Line, two: &mut Line) {\n    %s\n}\n' "$1" >"$room/crates/user/src/lib.rt"
    if (cd "$room/crates/user" && rt check >"$room/log" 2>&1); then result=proved; else result=refused; fi
    if [ "$2" = none ]; then
        [ $result = proved ] && echo "proved: $1" && return
    else
        [ $result = refused ] && grep -qF "error[$2]" "$room/log" && echo "refused, as it must be ($2): $1" && return
    fi
    echo "NOT AS IT MUST BE ($2): $1"
    cat "$room/log"
    exit 1
}

try 'pass.spend(one);' none
try 'let _ = pass.give_up();' none
try 'pass.spend(one); pass.spend(two);' borrow-e0382
try 'let other = pass; other.spend(one); pass.spend(two);' borrow-e0382
try 'let _ = pass.line();' linear-value-let-go
try 'pass.spend(one); let forged = Pass { line: *two }; forged.spend(one);' private-field
