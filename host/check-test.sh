#!/usr/bin/env bash
# Holds `both check`, `both joins` and `both types` to noticing a wrong port: each part of each call's answer is made wrong in turn, for `joins` and
# `types` some of them, and they must end with status 1 and name that part.
set -u
. "$(dirname "${BASH_SOURCE[0]}")/tools.sh"
no_words 'usage: host/check-test.sh
Tests target/host/x86/both check, joins and types, which host/link.sh builds. Status 0: all is well; 1: something is not; 2: it could not be run.' "$@"
find_x86 || give_up_without "$(no_x86)"
[ -x "$out/x86/wrong/both" ] || give_up_without "$out/x86/wrong/both (host/link.sh builds it)"
said=$(mktemp) || exit 2
trap 'rm -f "$said"' EXIT
count=0
words=(check --lines 300)

# What the words end with, on some drawn lines, where a part is made wrong; what is said is kept.
asked() {
    local status=0
    SPOIL=$1 "$out/x86/wrong/both" "${words[@]}" >"$said" 2>&1 || status=$?
    echo "$status"
}

# Ends the test where differences are found in a port that is not made wrong.
right() {
    [ "$(asked '')" = 0 ] || { echo "${words[0]} finds differences where the port is not made wrong:" && head -n 5 "$said" && exit 1; }
}

# notices SPOIL SAID [ALSO]: the part that is made wrong, and what every difference that is listed must name; ALSO is another name that it may have.
notices() {
    local status other
    count=$((count + 1))
    status=$(asked "$1")
    other=$(grep -E "^([RTP]|U\+[0-9A-F]+) '" "$said" | grep -vF -e "': $2" -e "': ${3:-$2}" | head -n 1)
    if [ "$status" != 1 ] || [ -n "$other" ] || ! grep -qF "': $2" "$said"; then
        echo "${words[0]} does not name '$2', and nothing else, where the port is wrong in '$1' (status $status):"
        head -n 5 "$said" | cut -c1-300
        exit 1
    fi
}

right

# The readers.
notices 'reader: refuses' "the reader's answer: "
notices 'reader: answer' "the reader's answer: "
for part in N B columns cells G; do
    case $part in columns | cells) name="the $part" ;; *) name=$part ;; esac
    notices "reader: $part" "the reader's numbers: $name: "
done
notices 'reader: number behind' "the reader's numbers: a number behind the five: "
for part in text types boundaries 'char positions' 'byte positions' 'cell starts' 'cell lengths' 'tag bytes'; do
    notices "reader: last of $part" "the reader's $part: "
    notices "reader: behind $part" "what stands behind the reader's $part: "
    notices "reader: overrun $part" "what stands behind the reader's $part: "
    notices "reader: $part where refused" "the $part of a refused reader: "
done
notices 'reader: starts of absent tags' "the reader's cell starts: "
notices 'reader: starts in their rows' "the reader's cell starts: "
notices 'reader: ends for lengths' "the reader's cell lengths: "
notices 'reader: lengths of the next cells' "the reader's cell lengths: "
notices 'reader: listed tags for cells' "the reader's numbers: the cells: "
notices 'reader: numbers where refused' 'the numbers of a refused reader: '
for number in 1 2 3 4 5 6 7 8 9 10; do
    notices "reader: number $number" "the reader's answer to a line that is to be refused: "
    notices "reader: place $number" "the reader's answer to a line that is to be refused: "
    notices "reader: accepts $number" "the reader's answer to a line that is to be refused: "
done
for part in number place accepts; do
    notices "reader: $part 11" "the reader's answer to short room: "
    notices "reader: $part 14" "the reader's answer to few numbers: "
    notices "reader: $part 16" "the reader's answer to an unknown form: "
done

# The conversion.
notices 'conversion: refuses' "the conversion's answer with room enough"
notices 'conversion: answer' "the conversion's answer with room enough"
for number in 1 2 3 4 5 6 7 8 9 10; do notices "conversion: number $number" "the conversion's answer with room enough"; done
notices 'conversion: place' "the conversion's answer "
notices 'conversion: accepts 2' "the conversion's answer with room enough"
notices 'conversion: line' 'the converted line: '
notices 'conversion: before' 'what stands before the converted line: '
notices 'conversion: behind' 'what stands behind the converted line: '
notices 'conversion: overrun' 'what stands behind the converted line: '
notices 'conversion: memory where refused' 'the output of a refused conversion: '
for part in number place accepts; do
    notices "conversion: $part 11" "the conversion's answer to a sentence with too many cells"
    notices "conversion: $part 12" "the conversion's answer with short room"
    notices "conversion: $part 14" "the conversion's answer to "
    notices "conversion: $part 16" "the conversion's answer to an unknown form: "
done

# The writers.
notices 'writer: refuses' "the writer's answer with room enough"
notices 'writer: answer' "the writer's answer with room enough"
notices 'writer: tokenized line' 'the line written as T: '
notices 'writer: partial line' 'the line written as P: '
notices 'writer: behind' 'what stands behind the line written '
notices 'writer: overrun' 'what stands behind the line written '
notices 'writer: memory where refused' 'the output of a refused writer: '
notices 'writer: sheet' 'after a writer, the text: '
for part in number place accepts; do
    notices "writer: $part 12" "the writer's answer with short room"
    notices "writer: $part 13" "the writer's answer to a changed sheet: "
    notices "writer: $part 16" "the writer's answer to an unknown form: "
done

# The withheld copy.
notices 'copy: refuses' "the copy's answer with room enough"
notices 'copy: answer' "the copy's answer with room enough"
notices 'copy: line' 'the withheld copy: '
notices 'copy: behind' 'what stands behind the withheld copy: '
notices 'copy: overrun' 'what stands behind the withheld copy: '
notices 'copy: memory where refused' 'the output of a refused copy: '
notices 'copy: sheet' 'after a copy, the text: '
for part in number place accepts; do
    notices "copy: $part 12" "the copy's answer with short room"
    notices "copy: $part 13" "the copy's answer to a changed sheet: "
    notices "copy: $part 14" "the copy's answer to a range that is none: "
done

# The key.
notices 'key: refuses' "the key's answer with room enough"
notices 'key: answer' "the key's answer with room enough"
notices 'key: line' 'the key: '
notices 'key: behind' 'what stands behind the key: '
notices 'key: overrun' 'what stands behind the key: '
notices 'key: memory where refused' 'the output of a refused key: '
notices 'key: sheet' 'after a key, the text: '
for part in number place accepts; do
    notices "key: $part 12" "the key's answer with short room" "the number of the key's refusal with no room: "
    notices "key: $part 13" "the key's answer to a changed sheet: "
done

# The token step.
notices 'step: refuses' "the step's answer"
notices 'step: answer' "the step's answer"
notices 'step: start' 'a token: ' 'the step from a place of any kind and its token: '
notices 'step: end' 'a token: ' 'the step from a place of any kind and its token: '
notices 'step: number behind' 'the number behind a token: ' 'the numbers behind the cursor at the end: '
notices 'step: cursor' "the cursor at the end: "
notices 'step: second where done' "the numbers behind the cursor at the end: "
notices 'step: cursor past the end' 'the step from a place of any kind and its cursor: '
notices 'step: sheet' 'after the steps, the text: '
notices 'step: span where refused' 'the span of a refused step: '
for part in number place accepts; do
    notices "step: $part 13" "the step's answer to a changed sheet: "
    notices "step: $part 14" "the step's answer to a short span: "
done

# The readers on lines glued together, and what is made of their sentences.
checked=$count words=(joins --pairs 60)
right
notices 'reader: refuses' "the port's answer: "
for part in N B cells G; do notices "reader: $part" "the port's numbers: "; done
for part in columns text types boundaries 'char positions' 'byte positions' 'cell starts' 'cell lengths' 'tag bytes'; do
    notices "reader: $part" "the port's $part: "
done
for part in number place accepts; do notices "reader: $part 1" "the port's answer: "; done
for part in 'tokenized line' 'partial line'; do notices "writer: $part" "the port's $part: "; done
for part in start end; do notices "step: $part" "the port's tokens: "; done

# The look-up, the reader and the check, on numbers and their types.
joined=$count words=(types --numbers 3000)
right
notices 'look-up: refuses' 'the look-up: '
notices 'look-up: answer' 'the look-up: '
notices 'look-up: surrogates' 'the look-up: '
notices 'look-up: numbers past all characters' 'the look-up: '
notices 'look-up: low bits alone' 'the look-up: '
notices 'reader: refuses' "the reader's answer: "
notices 'reader: types' "the reader's type: "
notices 'step: accepts 13' 'the step on a sheet with type '
notices 'step: refuses' 'the step on a sheet with type '
words=(types)
notices 'look-up: one number' 'the look-up: '
notices 'look-up: one number past the blocks' 'the look-up: '
notices 'look-up: the next number' 'the look-up: '
notices 'reader: last of types' "the reader's type: " "the types of the port's reader: "
echo "check names each of $checked parts that are made wrong, joins each of $((joined - checked)), types each of $((count - joined))"
