#!/bin/sh
# Tries the misuses in crates/NAME/refused/*.edit. The compiler refuses each before any proof, so a must-fail edit cannot show it.
# An edit has the three lines of a must-fail edit and a fourth, 'error: CODE', the error that the compiler has to give.
# Ends with status 1 where a misuse compiles, or is refused for another reason. Sources alone are compiled, and nothing is proved.
set -u
cd "$(dirname "$0")/.." || exit 2
work=$(mktemp -d) || exit 2
trap 'rm -rf "$work"' EXIT
mkdir "$work/crates" || exit 2
cp crates.txt "$work" || exit 2
for crate in crates/*; do
    mkdir "$work/$crate" || exit 2
    for part in src specs proofs; do
        [ ! -d "$crate/$part" ] || cp -R "$crate/$part" "$work/$crate" || exit 2
    done
done

# Compiles the library $1 under an empty test.
compiles() {
    (cd "$work/crates/$1" && rt try --test) >"$work/log" 2>&1
}

bad=0
for edit in crates/*/refused/*.edit; do
    [ -f "$edit" ] || { echo "no misuse to try"; exit 1; }
    crate=$(basename "$(dirname "$(dirname "$edit")")")
    file=$(sed -n 's/^file: //p' "$edit")
    code=$(sed -n 's/^error: //p' "$edit")
    from=crates/$crate/$file
    root=$work/crates/$crate/src/lib.rt
    { cat "crates/$crate/src/lib.rt" && printf '\n#[test]\nfn compiles() {}\n'; } >"$root" || exit 2
    # the crate as it stands has to compile, or a refusal would show nothing
    if ! compiles "$crate"; then
        echo "$edit: the crate $crate does not compile as it stands"
        grep -m 3 'error' "$work/log" | cut -c 1-300
        exit 1
    fi
    cp "$work/$from" "$work/whole" || exit 2
    OLD=$(sed -n 's/^old: //p' "$edit") NEW=$(sed -n 's/^new: //p' "$edit") awk '
        { text = text $0 "\n" }
        END { at = index(text, ENVIRON["OLD"]); if (!at) exit 3
              printf "%s%s%s", substr(text, 1, at - 1), ENVIRON["NEW"], substr(text, at + length(ENVIRON["OLD"])) }' \
        "$work/whole" >"$work/$from" || { echo "$edit: its old text is not in $from"; exit 1; }
    if compiles "$crate"; then
        echo "$edit: NOT REFUSED: the misuse compiles"
        bad=1
    elif grep -q "error\[$code\]" "$work/log"; then
        echo "$edit: refused with $code, as it must be"
    else
        echo "$edit: NOT REFUSED with $code"
        grep -m 3 'error' "$work/log" | cut -c 1-300
        bad=1
    fi
    cp "$work/whole" "$work/$from"
done
exit $bad
