# Sourced by telegram-list under --explain: what a listing's number means and what to look at, and for a sound telegram its areas
# taken apart. The caller sets `root` and `bytes`, the bytes of the telegram as two hexadecimal digits each.
#
# The texts of numbers and errors are those of include/uss_text.h. The rules are document 01's: Frame, Parameter area, Slave.

# what an ID asks as a task, and what it says as a reply
tasks=('no task' 'read' 'change word' 'change double' 'no such task' 'no such task' 'read element' 'change element, word'
    'change element, double' 'number of elements' 'no such task' 'change element, double, and save'
    'change element, word, and save' 'change double, and save' 'change word, and save' 'no such task')
replies=('nothing' 'word' 'double' 'no reply' 'word of an element' 'double of an element' 'number of elements' 'error'
    'no right to change' 'no reply' 'no reply' 'no reply' 'no reply' 'no reply' 'no reply' 'no reply')

# text KIND NUMBER: the text of include/uss_text.h for a number or an error
text() {
    awk -v kind="$1" -v number="$2" '
        /^enum / { within = $2 }
        within == "uss_" kind && $1 ~ /^USS_/ && $2 == "=" { of[$1] = $3 + 0 }
        /^static inline / { within = ""; reading = index($0, "uss_" kind "_text(") }
        reading && ($1 == "case" || $1 == "default:") {
            name = $2
            sub(/:$/, "", name)
            if ($1 == "case" && (!(name in of) || of[name] != number)) next
            sub(/^[^"]*"/, "")
            sub(/";$/, "")
            print
            exit
        }' "$root/include/uss.h" "$root/include/uss_text.h"
}

# byte I, word I: the byte at place I from 0; the net word I from 0
byte() {
    echo $((16#${bytes[$1]}))
}
word() {
    echo $((16#${bytes[3 + 2 * $1]}${bytes[4 + 2 * $1]}))
}

# hex_words FROM COUNT: these net words, in hexadecimal digits
hex_words() {
    local i shown=''
    for ((i = $1; i < $1 + $2; i++)); do
        printf -v shown '%s %04X' "$shown" "$(word "$i")"
    done
    echo "${shown# }"
}

# xor_before: the XOR of all bytes but the last
xor_before() {
    local i sum=0
    for ((i = 0; i < ${#bytes[@]} - 1; i++)); do sum=$((sum ^ 16#${bytes[i]})); done
    echo "$sum"
}

# look_at NUMBER: what to look at where the listing refuses with it
look_at() {
    local n="${#bytes[@]}" i sum
    case "$1" in
    10) echo "$n came. Noise, or the bytes were cut off too early, at a pause inside the telegram." ;;
    11)
        for ((i = 1; i < n; i++)); do [ "${bytes[i]}" != 02 ] || break; done
        echo "it is ${bytes[0]^^}, $([ "$i" = "$n" ] && echo 'and no 02 follows' || echo "and the first 02 is byte $((i + 1))")." \
            'The bytes do not start at a telegram: the pause before it, noise, or an echo of what was sent.'
        ;;
    12) echo "it is $(byte 1). Noise, or bytes before it are lost or too many." ;;
    13)
        i=$(($(byte 1) + 2))
        if [ "$n" -lt "$i" ]; then
            echo "$i are due and $n came. Bytes are lost, the telegram was cut at a pause inside it, or LGE was hit."
        else
            echo "$i are due and $([ "$n" -lt "$most" ] || echo 'at least ')$n came. More than one telegram, noise behind it, or LGE was hit."
        fi
        ;;
    14)
        sum="$(xor_before)"
        printf 'the bytes before it give %02X, and %s came. ' "$sum" "${bytes[n - 1]^^}"
        if [ "$(byte $((n - 1)))" = $((sum ^ 2)) ]; then
            echo 'That is the XOR without the 02: the sender starts it one byte too late, or bit 1 of a byte was hit.'
        else
            echo 'Noise: cable, screen, ends of the line. Where it is always so, the way the sender reckons it.'
        fi
        ;;
    15)
        i="$(byte 2)"
        echo "it is ${bytes[2]^^}, with $([ "$i" -ge 128 ] && echo 'bit 7' || echo 'broadcast and mirror, bits 5 and 6, both') set." \
            'A device that speaks otherwise.'
        ;;
    *) echo 'docs/CALLS.md has the numbers.' ;;
    esac
}

# signed NUMBER BITS: the number and, where its top bit is set, what it is with a sign
signed() {
    if [ "$1" -ge $((1 << ($2 - 1))) ]; then echo "$1 (with a sign $(($1 - (1 << $2))))"; else echo "$1"; fi
}

# parameter_area PKW: PKE, IND and PWE of an area of that many words
parameter_area() {
    local pke ind id base nibble page value number rest=''
    pke="$(word 0)" ind="$(word 1)" value="$(word $(($1 - 1)))"
    id=$((pke >> 12)) base=$((pke & 2047)) nibble=$((ind >> 12))
    page=$((nibble % 8 * 2 + nibble / 8)) # bits 15 to 12 of IND, whose weights are 1, 8, 4, 2
    number="parameter $((2000 * page + base))"
    [ "$base" -lt 2000 ] || number='no parameter, since the base is over 1999'
    [ $((pke & 2048)) = 0 ] || rest='; bit 11 is set, which no reply has'
    echo "  PKE $(hex_words 0 1): ID $id, as a task \"${tasks[id]}\", as a reply \"${replies[id]}\"; base $base$rest"
    rest=''
    [ $((ind & 3840)) = 0 ] || rest='; bits 11 to 8 are not all 0, which no reply has'
    echo "  IND $(hex_words 1 1): page nibble $nibble is page $page, index $((ind & 255)): $number$rest"
    rest="word $(signed "$value" 16)"
    [ "$1" = 3 ] || rest="$rest, double $(signed $(($(word 2) * 65536 + value)) 32)"
    [ "$id" != 7 ] || rest="$rest; as a reply error $value, $(text error "$value")"
    echo "  PWE $(hex_words 2 $(($1 - 2))): $rest"
}

# broadcast_area PKW: the same words in a broadcast
broadcast_area() {
    local fourth=''
    [ "$1" = 3 ] || fourth=", fourth word $(hex_words 3 1)"
    echo "  selector $(hex_words 0 1), mask of the first process word $(hex_words 1 1), of the second $(hex_words 2 1)$fourth"
}

# reading KIND PKW PZD: the areas of the telegram in such a set-up
reading() {
    echo "PKW $2, PZD $3:"
    case "$1 $2" in
    'broadcast 0') echo '  no selector: void (18)' ;;
    *' 0') echo '  no parameter area' ;;
    broadcast*) broadcast_area "$2" ;;
    *) parameter_area "$2" ;;
    esac
    if [ "$3" = 0 ]; then echo '  no process words'; else echo "  PZD $(hex_words "$2" "$3")"; fi
}

# readings KIND: each set-up that has as many net bytes
readings() {
    local net=$((${#bytes[@]} - 4)) pkw pzd all=''
    for pkw in 0 3 4; do
        pzd=$((net / 2 - pkw))
        if [ $((net % 2)) = 0 ] && [ "$pzd" -ge 0 ] && [ "$pzd" -le 4 ]; then
            all+="$(reading "$1" "$pkw" "$pzd")"$'\n'
        fi
    done
    if [ -n "$all" ]; then
        echo 'The set-up of master and drive (PKW, PZD) decides which reading holds; the bytes do not say it.'
        printf '%s' "$all"
    else
        echo 'No set-up has so many: 2 x (PKW + PZD), with PKW 0, 3 or 4 and PZD 0 to 4. A slave refuses them with 17.'
    fi
}

# explain LISTING: the lines after it
explain() {
    local net=$((${#bytes[@]} - 4)) kind node
    if [[ "$1" =~ \ refused\ ([0-9]+) ]]; then
        echo "refused ${BASH_REMATCH[1]}, $(text number "${BASH_REMATCH[1]}"): $(look_at "${BASH_REMATCH[1]}")"
        return
    fi
    [[ "$1" =~ \ node\ ([0-9]+)\ ([a-z]+) ]]
    node="${BASH_REMATCH[1]}" kind="${BASH_REMATCH[2]}"
    case "$kind" in
    mirror) echo "sound: node $node sends the same bytes back; net bytes $net, which are not looked at" ;;
    broadcast) echo "sound: for every node, none answers; README.md says when it is void (18); net bytes $net" ;;
    *) echo "sound: to or from node $node; net bytes $net" ;;
    esac
    [ "$kind" = mirror ] || readings "$kind"
}
