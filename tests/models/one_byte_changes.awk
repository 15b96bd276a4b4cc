# From the bytes of a script, as numbers: every text that differs from it in one byte, where the byte becomes one of a
# dozen that mean something to a script, or nothing. Each is a line, after the limit that it is to be replayed under.

BEGIN { others = split("0 10 13 32 35 48 57 65 95 122 127 128", other, " ") }

{ for (i = 1; i <= NF; i++) byte[++count] = $i }

END {
    for (at = 1; at <= count; at++) {
        kept = byte[at]
        for (o = 1; o <= others; o++) {
            if (other[o] == kept) continue
            byte[at] = other[o]
            print_text()
        }
        byte[at] = kept
    }
}

function print_text(    i) {
    printf "65536"
    for (i = 1; i <= count; i++) printf " %d", byte[i]
    printf "\n"
}
