#!/usr/bin/env bash
# Tests what ./hrthood answers before it runs the program, and which program it runs: in a small clone with stand-ins for the binary, the page,
# `node` and `rt`, so that neither a kit nor a proof is needed. The last line tells how many were as wanted; status 1 where one wasn't.
# shellcheck disable=SC2016  # the stand-ins expand what they hold
set -uo pipefail

top=$(CDPATH='' cd -- "$(dirname -- "${BASH_SOURCE[0]}")/../.." && pwd) || exit 1
room=$(mktemp -d) || exit 1
trap 'rm -rf "$room"' EXIT
cd "$room" || exit 1
count=0
good=0

# Counts a comparison of what was found with what is wanted.
compare() {
    count=$((count + 1))
    if [ "$2" = "$3" ]; then
        good=$((good + 1))
    else
        printf '%s: found\n%s\nand not\n%s\n' "$1" "$2" "$3" >&2
    fi
}

# A clone of the wrapper's own files, one crate, and a path that has neither `rt` nor `node`.
mkdir -p clone/crates/hrthood/src clone/crates/hrthood/specs clone/crates/hrthood/proofs clone/tools clone/examples/wanted path kit
cp -R "$top/hrthood" "$top/VERSION" clone
cp -R "$top/tools/gate" "$top/tools/hrthood.mjs" clone/tools
cp "$top/examples/wanted/usage" clone/examples/wanted
echo 'fn main() {}' >clone/crates/hrthood/src/main.rt
cp -R clone/crates/hrthood clone/crates/first_answer
printf 'hrthood:\nfirst_answer:\n' >clone/crates.txt
touch clone/HANDLES
for tool in sh cat dirname readlink find sort xargs sha256sum sed stat mktemp rm mv mkdir touch tail head cp grep tr git; do
    ln -s "$(command -v "$tool")" path/
done
usage=$(cat clone/examples/wanted/usage)
version=$(cat clone/VERSION)

# Runs the wrapper of the clone on words.
wrapper() {
    PATH=$room/kit:$room/path "./${name:-clone/hrthood}" "$@"
}

# The same, and sets status, out and err.
run() {
    wrapper "$@" </dev/null >out_file 2>err_file
    status=$?
    out=$(cat out_file)
    err=$(cat err_file)
}

# Everything in the clone, with times.
listed() {
    find clone -printf '%p %s %T@\n' | sort
}

# Words that are answered at once: nothing is made, though nothing is built.
before=$(listed)
for words in --help -h; do
    run $words
    compare "$words: status" "$status" 0
    compare "$words: first line" "${out%%$'\n'*}" "$usage"
    compare "$words: names the manual" "$(grep -c 'docs/USING.md' out_file)" 1
    compare "$words: standard error" "$err" ''
done
for words in '' help nonsense check 'check a b' "''" 'verify a' 'accepts a b' 'sample' 'sample 1 2' '--nonsense' "'check |' a" D; do
    eval "run $words"
    compare "words: $words: status" "$status" 2
    compare "words: $words: standard output" "$out" ''
    compare "words: $words: first line of standard error" "${err%%$'\n'*}" "$usage"
    compare "words: $words: other lines" "$(sed 1d err_file | grep -cv '^hrthood: ')" 0
done
run --version
compare '--version: status' "$status" 0
compare '--version' "$out" "hrthood $version (no commit; no kit)"
for words in --help --version; do
    wrapper $words >/dev/full 2>/dev/null
    compare "$words into a full device" $? 4
done
ln -s clone/hrthood link
compare 'by a link' "$(name='link' wrapper --version)" "hrthood $version (no commit; no kit)"
run check x.design
compare 'neither a program nor rt: status' "$status" 125
compare 'neither a program nor rt: standard error' "$(grep -c 'there is no node' err_file)" 1
compare 'nothing was made' "$(listed)" "$before"

# A commit and a kit.
printf '#!/bin/sh\n[ "$1" = version ] && echo "kit-1 logic 2" && exit\n' >kit/rt
chmod +x kit/rt
(cd clone && git init -q . && git -c user.name=a -c user.email=a@b -c commit.gpgsign=false commit -q --allow-empty -m a) >/dev/null 2>&1
commit=$(git -C clone rev-parse --short=8 HEAD)
run --version
compare '--version with a commit and a kit' "$out" "hrthood $version ($commit; kit-1 logic 2)"

# A page of these sources is run by node.
top=$room/clone
# shellcheck source=tools/gate/current.sh
. clone/tools/gate/current.sh
printf '#!/bin/sh\necho "by node: $*" 2>/dev/null || exit 4\nexit 3\n' >path/node
chmod +x path/node
make_page() {
    printf '<html>\n<head>\n<meta name="made" content="version %s sources %s kit %s">\n<title>L</title>\n' "$version" "$1" "$2" >clone/lafomizana.html
}
by_node="by node: $room/clone/tools/hrthood.mjs check a b.design"
make_page "$(sum_of_sources)" 'kit-1 logic 2'
run check 'a b.design'
compare 'a page of these sources: status' "$status" 3
compare 'a page of these sources' "$out" "$by_node"
compare 'a page of these sources: standard error' "$err" ''
compare 'a mark of the page' "$(ls clone/out)" page.seen
run check 'a b.design'
compare 'a page with a mark' "$out" "$by_node"
wrapper check 'a b.design' >&- 2>err_file
compare 'a page, standard output closed' $? 4
rm kit/rt
run check 'a b.design'
compare 'a page without a kit here' "$out" "$by_node"
run --version
compare '--version has the kit of the page' "$out" "hrthood $version ($commit; kit-1 logic 2)"
make_page "$(sum_of_sources)" 'kit-2 logic 2'
run check 'a b.design'
compare 'a page of another kit, without a kit here' "$out" "$by_node"

# A page of other sources or of another kit is not run: the answer is one without proof, which is said once, and no proof is started.
cat >kit/rt <<'END'
#!/bin/sh
[ "$1" = version ] && echo "kit-1 logic 2" && exit
echo "rt $*" >>"$RT_CALLS"
echo 'an answer'
echo 'checked: ended status=1' >&2
echo 'run=ended status=1 proved=no' >&2
exit 1
END
chmod +x kit/rt
export RT_CALLS=$room/rt_calls
unproved() {
    : >rt_calls
    run check x.design
    compare "$1: status" "$status" 1
    compare "$1: standard output" "$out" 'an answer'
    compare "$1: said once" "$(grep -c 'NOT PROVED' err_file)" 1
    compare "$1: says why" "$(grep -cF "$2" err_file)" 1
    compare "$1: names the script that proves" "$(grep -c 'tools/gate/prove_program.sh' err_file)" 1
    compare "$1: no more lines" "$(grep -c . err_file)" 1
    compare "$1: calls of rt" "$(cat rt_calls)" "rt try --seconds 600 -- check $room/x.design"
    compare "$1: no proof" "$(cd clone && ls -d out/proof.* crates/*/out 2>/dev/null)" ''
}
unproved 'a page of another kit' 'lafomizana.html is of other sources'
make_page "$(sum_of_sources)" 'kit-1 logic 2'
run check 'a b.design'
compare 'a page of this kit again' "$out" "$by_node"
sleep 0.01
echo '// an edit' >>clone/crates/hrthood/src/main.rt
unproved 'a page of other sources' 'lafomizana.html is of other sources'
make_page "" 'kit-1 logic 2'
unproved 'a page without a checksum' 'lafomizana.html is of other sources'
: >rt_calls
export HRTHOOD_UNPROVED=never
run check x.design
unset HRTHOOD_UNPROVED
compare 'no run without proof: status' "$status" 125
compare 'no run without proof: standard output' "$out" ''
compare 'no run without proof: says why' "$err" \
    'hrthood: no proved program of these sources, since lafomizana.html is of other sources; tools/gate/prove_program.sh proves and builds it'
compare 'no run without proof: calls of rt' "$(cat rt_calls)" ''
rm clone/lafomizana.html
unproved 'no page' 'there is no page lafomizana.html'
make_page "$(sum_of_sources)" 'kit-1 logic 2'
rm path/node
unproved 'no node' 'there is no node'

# A current binary comes before all.
mkdir clone/crates/hrthood/out
printf '#!/bin/sh\necho "proved: $*"\nexit 1\n' >clone/crates/hrthood/out/hrthood
chmod +x clone/crates/hrthood/out/hrthood
run check x.design
compare 'a proved binary: status' "$status" 1
compare 'a proved binary' "$out" 'proved: check x.design'
compare 'a proved binary: standard error' "$err" ''
# In words where they are asked for, or on a terminal: by node, if there is one.
export HRTHOOD_WORDS=always
run check x.design
compare 'words without node' "$out" 'proved: check x.design'
printf '#!/bin/sh\necho "by node: $*"\n' >path/node
chmod +x path/node
run check x.design
in_words="by node: $room/clone/tools/report/told_at.mjs --run $room/clone/crates/hrthood/out/hrthood check x.design"
compare 'words' "$out" "$in_words"
export HRTHOOD_WORDS=never
run check x.design
compare 'no words' "$out" 'proved: check x.design'
unset HRTHOOD_WORDS
run check x.design
compare 'no words without a terminal' "$out" 'proved: check x.design'
on_terminal=$(python3 -c 'import pty, sys; pty.spawn(sys.argv[1:])' env PATH="$room/kit:$room/path" ./clone/hrthood check x.design </dev/null)
compare 'words on a terminal' "${on_terminal%%$'\r'*}" "$in_words"

echo "$good of $count as wanted"
[ "$good" -eq "$count" ]
