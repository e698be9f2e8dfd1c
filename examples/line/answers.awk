# Shows the answer bytes of a line, given in hexadecimal, with words beside them.
function number(at, count,    value) {
    for (value = 0; count > 0; count--)
        value = value * 256 + (index("0123456789abcdef", substr(byte[at + count - 1], 1, 1)) - 1) * 16 + index("0123456789abcdef", substr(byte[at + count - 1], 2, 1)) - 1
    return value
}

function show(at, count, words,    text, i) {
    for (i = at; i < at + count; i++)
        text = text byte[i] (i == at || count == 13 && i == at + 4 || count == 7 && i < at + 3 ? " " : "")
    printf "%-31s%s\n", text, words
}

{
    total = split($0, byte, " ")
    for (at = 1; at <= total; at += width) {
        if (byte[at] == "53") {
            width = 13
            show(at, width, "sealed: number " number(at + 1, 4) ", tag " number(at + 5, 8))
        } else if (byte[at] == "58" || byte[at] == "59") {
            width = 5
            show(at, width, (byte[at] == "58" ? "struck: number " : "accepted: number ") number(at + 1, 4))
        } else {
            width = 7
            show(at, width, "refused: layer " number(at + 1, 1) ", refusal " number(at + 2, 1) ", at place " number(at + 3, 4))
        }
    }
}
