#!/usr/bin/env bash
# Compare two programs on generated problems, byte for byte.
#
#   compare.sh SECOND OURS SEED COUNT
#
# SECOND and OURS are commands, each as one word (quote them), that read a stream of problems on standard input. The generator is $GENERATE, or the one that
# tests/build-second makes. Each of the three has to end with 0 within $LIMIT seconds (240); the generator has to make COUNT problems, and each of the two to
# print COUNT blocks and nothing else. Prints the seed. On a difference prints the index and the hexadecimal bytes of the first problem that differs and
# both blocks. Ends with 0 only if all agree.
set -u

if [ "$#" -ne 4 ]; then
    echo "usage: compare.sh SECOND OURS SEED COUNT" >&2
    exit 2
fi

second=$1
ours=$2
seed=$3
count=$4
limit=${LIMIT:-240}
here=$(cd "$(dirname "$0")" && pwd)
generate=${GENERATE:-$here/../target/second/generate}
room=$(mktemp -d) || exit 2
trap 'rm -rf "$room"' EXIT
failed=0

# What a command prints goes to a file of a bounded length: no input of a stream and no answer's lines have more than 70 KB.
most=$((70 * count + 262144))
run() { # NAME OUTPUT COMMAND.., with standard input
    local name=$1 output=$2 status
    shift 2
    (
        ulimit -f "$most"
        timeout -k 5 "$limit" "$@" >"$output"
    )
    status=$?
    case $status in
    0) return ;;
    124 | 137) echo "seed $seed: $name did not end within $limit s" ;;
    153) echo "seed $seed: $name printed more than $most KB" ;;
    *) echo "seed $seed: $name ended with $status" ;;
    esac
    failed=1
}

echo "seed $seed, $count problems"
run "the generator" "$room/stream" "$generate" "$seed" "$count" </dev/null
[ "$failed" -eq 0 ] || exit 1
run "'$second'" "$room/second" bash -c "$second" <"$room/stream"
run "'$ours'" "$room/ours" bash -c "$ours" <"$room/stream"

python3 - "$room" "$seed" "$count" "$second" "$ours" <<'PYTHON' || failed=1
import sys

room, seed, count, *commands = sys.argv[1:]
count = int(count)
faults = 0


def load(name):
    with open(room + "/" + name, "rb") as file:
        return file.read()


def tell(words):
    global faults
    faults += 1
    print("seed %s: %s" % (seed, words))


def problems_of(stream):
    problems, offset = [], 0
    while offset < len(stream):
        length = int.from_bytes(stream[offset:offset + 4], "big")
        problems.append(stream[offset + 4:offset + 4 + length])
        offset += 4 + length
    if offset > len(stream):
        tell("the generator's stream is cut")
    return problems


def blocks_of(name, command):
    *blocks, rest = load(name).split(b"\n\n")
    if len(blocks) != count or rest:
        tell("'%s' printed %d blocks for %d problems%s" % (command, len(blocks), count, ", and then %r" % rest[:200] if rest else ""))
    return blocks


def show(command, blocks, index):
    print("--- " + command)
    print(blocks[index].decode("utf-8", "replace") if index < len(blocks) else "(no block; the output ended before)")


problems = problems_of(load("stream"))
if len(problems) != count or not problems:
    tell("the generator made %d problems, not %d" % (len(problems), count))
left, right = blocks_of("second", commands[0]), blocks_of("ours", commands[1])
if left != right:
    index = next((i for i, (one, other) in enumerate(zip(left, right)) if one != other), min(len(left), len(right)))
    tell("problem %d is the first that differs" % index)
    print(problems[index].hex() if index < len(problems) else "(no such problem: there are %d)" % len(problems))
    show(commands[0], left, index)
    show(commands[1], right, index)
sys.exit(1 if faults else 0)
PYTHON
[ "$failed" -eq 0 ] || exit 1
echo "seed $seed: $count problems agree"
