#!/usr/bin/env bash
# The texts of include/uss_text.h. Each value of the three enums of include/uss.h, read from that header, has a text of its own; every
# other number up to 70000, and the largest, has the one text for none. The header compiles strictly as C99 and as C++11, where its
# functions are used and where they are not, and leaves nothing in a program that does not use them. Exits 1 where one fails.
#     tests/text.sh
set -euo pipefail
cd "$(dirname "$(readlink -f "${BASH_SOURCE[0]}")")/.."
room="$(mktemp -d)"
trap 'rm -rf "$room"' EXIT
strict=(-Wall -Wextra -Wunused-function -Werror -pedantic -Iinclude)
languages=('gcc -x c -std=c99' 'g++ -x c++ -std=c++11')
failed=0

wrong() {
    echo "texts: $1"
    failed=1
}

# names ENUM: the names of its values in the header, without the comments
names() {
    gcc -fpreprocessed -E -P include/uss.h | tr -d '\n' | grep -oE "enum $1 \{[^}]*\}" | grep -oE 'USS_[A-Z_0-9]+'
}

# driver: a program that prints a line "number N TEXT", "error N TEXT" or "rule N TEXT" for each value, then one "none KIND N TEXT" for
# each number that is no value
driver() {
    local kind
    printf '#include "uss_text.h"\n#include <stdio.h>\n'
    for kind in number error rule; do
        printf 'static const uint32_t %ss[] = {%s};\n' "$kind" "$(names "uss_$kind" | paste -sd,)"
    done
    cat <<'PROGRAM'
static void tell(const char *kind, const uint32_t *known, size_t count, const char *(*text)(uint32_t))
{
    size_t i;
    uint32_t n;
    for (i = 0; i < count; i++)
        printf("%s %lu %s\n", kind, (unsigned long)known[i], text(known[i]));
    for (n = 0; n <= 70000; n++) {
        uint32_t asked = n == 70000 ? 0xFFFFFFFFu : n;
        for (i = 0; i < count && known[i] != asked; i++)
            ;
        if (i == count)
            printf("none %s %lu %s\n", kind, (unsigned long)asked, text(asked));
    }
}

int main(void)
{
    tell("number", numbers, sizeof numbers / sizeof numbers[0], uss_number_text);
    tell("error", errors, sizeof errors / sizeof errors[0], uss_error_text);
    tell("rule", rules, sizeof rules / sizeof rules[0], uss_rule_text);
    return 0;
}
PROGRAM
}

# own KIND: each value of the enum has a text, no two the same one, none that of the other numbers, which have one text
own() {
    local count texts none
    count="$(names "uss_$1" | wc -l)"
    texts="$(sed -nE "s/^$1 [0-9]+ (.+)$/\1/p" "$room/said")"
    none="$(sed -nE "s/^none $1 [0-9]+ (.+)$/\1/p" "$room/said" | sort -u)"
    [ "$count" -gt 0 ] || wrong "enum uss_$1 has no values in include/uss.h"
    [ "$(wc -l <<<"$texts")" = "$count" ] || wrong "not every value of uss_$1 has a text"
    [ "$(sort -u <<<"$texts" | wc -l)" = "$count" ] || wrong "two values of uss_$1 have the text $(sort <<<"$texts" | uniq -d)"
    [ "$(wc -l <<<"$none")" = 1 ] && [ -n "$none" ] || wrong "the numbers that are no uss_$1 have not one text: $none"
    ! grep -qxF "$none" <<<"$texts" || wrong "a value of uss_$1 has the text of none, $none"
    echo "texts: $count values of uss_$1, and \"$none\""
}

driver > "$room/used.c"
printf '#include "uss_text.h"\nint main(void) { return 0; }\n' > "$room/unused.c"
for language in "${languages[@]}"; do
    read -ra compile <<<"$language"
    "${compile[@]}" "${strict[@]}" -o "$room/used" "$room/used.c" && "$room/used" > "$room/said.${compile[0]}" \
        || wrong "${compile[0]} refuses the texts where they are used"
    "${compile[@]}" "${strict[@]}" -c -o "$room/unused.o" "$room/unused.c" || wrong "${compile[0]} refuses the texts where they are not used"
    cut -d' ' -f3- "$room/said.${compile[0]}" | sort -u > "$room/texts"
    left="$(nm "$room/unused.o" | grep 'uss_' || true)$(strings -a "$room/unused.o" | grep -xFf "$room/texts" || true)"
    [ -z "$left" ] || wrong "${compile[0]} leaves of the texts, though they are not used: $left"
done
cmp -s "$room/said.gcc" "$room/said.g++" || wrong 'C and C++ say different texts'
mv "$room/said.gcc" "$room/said"
own number
own error
own rule
exit "$failed"
