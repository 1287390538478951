# Turns a strings file into a job's lines of strings: od's hex bytes in, 's=' and hex out, a line for each text. Bytes go through
# as they are but for document 01's escapes; a line ends at LF or CR LF, and the last one may do without.
BEGIN {
    for (i = 0; i < 256; i++) value[sprintf("%02x", i)] = i
    for (i = 0; i < 16; i++) { digit[sprintf("%x", i)] = i; digit[sprintf("%X", i)] = i }
    plain["n"] = "0A"; plain["r"] = "0D"; plain["t"] = "09"; plain["0"] = "00"; plain["\""] = "22"; plain["\\"] = "5C"
    line = 1; begun = 0; after_cr = 0; state = "text"; mark = 0
}

function fault(what) {
    escapes = "\\\" \\\\ \\n \\r \\t \\0 \\uXXXX and \\u{X..}"
    printf "desk: %s, line %d: %s; the escapes are %s\n", ENVIRON["FILE"], line, what, escapes >"/dev/stderr"
    failed = 1
    exit 2
}

function start() { if (!begun) printf "s="; begun = 1 }

function byte(b) { start(); printf "%02X", b }

function character(c) {
    if (c > 1114111 || (c >= 55296 && c <= 57343)) fault("an escape that is no character")
    if (c < 128) byte(c)
    else if (c < 2048) { byte(192 + int(c / 64)); byte(128 + c % 64) }
    else if (c < 65536) { byte(224 + int(c / 4096)); byte(128 + int(c / 64) % 64); byte(128 + c % 64) }
    else { byte(240 + int(c / 262144)); byte(128 + int(c / 4096) % 64); byte(128 + int(c / 64) % 64); byte(128 + c % 64) }
    state = "text"
}

function end_line() {
    if (state != "text") fault("an escape is cut off")
    start(); print ""
    begun = 0; line++
}

# One byte, b, of the file; c is its character where it is one of ASCII.
function take(b, c) {
    if (after_cr) {
        after_cr = 0
        if (b != 10) byte(13)
    }
    if (b == 10) end_line()
    else if (state == "text") {
        if (b == 92) state = "escape"
        else if (b == 13) after_cr = 1
        else byte(b)
    } else if (state == "escape") {
        if (c in plain) { start(); printf "%s", plain[c]; state = "text" }
        else if (c == "u") { state = "unicode"; code = 0; digits = 0 }
        else fault(b == 13 ? "an escape is cut off" : "a backslash and " (c == "" ? "a byte" : c) " is no escape")
    } else if (c == "{" && state == "unicode" && digits == 0) state = "braces"
    else if (c == "}" && state == "braces" && digits > 0) character(code)
    else if (c in digit && digits < 6) {
        code = code * 16 + digit[c]; digits++
        if (state == "unicode" && digits == 4) character(code)
    } else fault(state == "braces" ? "\\u{ needs one to six hex digits and }" : "\\u needs four hex digits, or { and }")
}

{
    for (i = 1; i <= NF; i++) {
        b = value[$i]
        # A byte order mark is no part of the first text.
        if (mark < 3) {
            first[mark++] = b
            if (mark == 3 && !(first[0] == 239 && first[1] == 187 && first[2] == 191))
                for (j = 0; j < 3; j++) take(first[j], ascii(first[j]))
        } else take(b, ascii(b))
    }
}

function ascii(b) { return b > 32 && b < 127 ? sprintf("%c", b) : "" }

END {
    if (failed) exit 2
    if (mark < 3) for (j = 0; j < mark; j++) take(first[j], ascii(first[j]))
    if (failed) exit 2
    if (after_cr) byte(13)
    if (begun || state != "text") end_line()
    if (failed) exit 2
}
