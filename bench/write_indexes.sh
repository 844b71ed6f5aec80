#!/bin/sh
# Writes the indexes of the three code tables from the codes as they stand in crates/bp_codes/src/tables.rt:
# what stands at the front of each list of bits that is no longer than the longest code, a code as its row and
# 256 times its length. That they agree with the codes is proved by each check. Lay the files out afterwards with `rt fmt` in crates/bp_codes.
set -eu
src="$(dirname "$0")/../crates/bp_codes/src"

write() { # function, file, static, longest code, what is indexed
    awk -v function_name="$1" -v name="$3" -v longest="$4" -v what="$5" '
        $0 ~ "^pub fn " function_name "\\(" { inside = 1 }
        inside && /^}/ { inside = 0 }
        inside && /^ *\/\// { next }
        inside {
            line = $0
            while (match(line, /"[01]+"/)) {
                code[rows++] = substr(line, RSTART + 1, RLENGTH - 2)
                line = substr(line, RSTART + RLENGTH)
            }
        }
        function entry(bits,    row) {
            for (row = 0; row < rows; row++) if (index(bits, code[row]) == 1) return row + 256 * length(code[row])
            for (row = 0; row < rows; row++) if (index(code[row], bits) == 1) return 255
            return 254
        }
        function binary(number, count,    bits) {
            for (bits = ""; count > 0; count--) { bits = (number % 2) bits; number = int(number / 2) }
            return bits
        }
        END {
            print "// The index of " what ", written by bench/write_indexes.sh. That it agrees with the codes is proved."
            print ""
            print "/// At 2^n + p: what stands at the front of the n bits that are the number p. Place 0 means nothing."
            printf "pub static %s: [u16; %d] = [255", name, 2 ^ (longest + 1)
            for (count = 0; count <= longest; count++)
                for (number = 0; number < 2 ^ count; number++)
                    printf ", %d", count == 0 ? 255 : entry(binary(number, count))
            print "];"
        }
    ' "$src/tables.rt" > "$src/$2.new"
    mv "$src/$2.new" "$src/$2"
}

write white white_index.rt WHITE_INDEX 12 "the white codes"
write black black_index.rt BLACK_INDEX 13 "the black codes"
write modes mode_index.rt MODE_INDEX 7 "the codes of the modes"
