# Reads a file of cases. `mode` says what for: list (names), questions, show (cases in clear) or
# compare (with the lines of the file `answers`; `status` is that of the program which wrote them).
# `wanted` has the names of cases, groups or files, all if there are none.

function value(digits, at, result) {
    for (at = 1; at <= length(digits); at++)
        result = 16 * result + index("0123456789abcdef", substr(digits, at, 1)) - 1
    return result + 0
}

function short(text) {
    return length(text) > 150 ? substr(text, 1, 150) ".." : text
}

# Bytes in clear, from one of them on and at most 400: a line feed starts a new line.
function clear(digits, from, text, at, byte) {
    if (digits == "-") return "(empty)"
    for (at = 2 * from + 1; at < length(digits) && at < 2 * from + 800; at += 2) {
        byte = value(substr(digits, at, 2))
        if (byte == 10) text = text (at + 2 < length(digits) ? "\n            " : "")
        else text = text (byte > 31 && byte < 127 ? sprintf("%c", byte) : "\\x" substr(digits, at, 2))
    }
    return (from > 0 ? "from byte " from " on: .." : "") text (at < length(digits) ? ".." : "")
}

# A set in hexadecimal whose lowest bit is this member: 0 for variables, 1 for goals.
function members(digits, lowest, at, bit, digit, result) {
    for (at = length(digits); at >= 1; at--) {
        digit = value(substr(digits, at, 1))
        for (bit = 0; bit < 4; bit++) {
            if (digit % 2 == 1) result = result (result == "" ? "" : ",") 4 * (length(digits) - at) + bit + lowest
            digit = int(digit / 2)
        }
    }
    return "{" result "}"
}

# The ended goals and the heads of a line whose field with the ended goals is this one.
function state(line, at, words, fields, count, head) {
    count = split(line, fields, " ")
    words = "ended " members(fields[at], 1)
    for (at += 2; at < count; at += 2)
        words = words "; head " ++head " " (fields[at] == 0 && fields[at + 1] == 0 ? "idle" : "goal " fields[at] ", " fields[at + 1] " left")
    return length(words) > 500 ? substr(words, 1, 500) ".." : words
}

# A record's fields in words, as far as they go.
function record(digits, words, goals, goal, at, fixed, long, pairs) {
    if (length(digits) < 48) return (digits == "-" ? 0 : length(digits) / 2) " bytes"
    goals = value(substr(digits, 11, 2))
    words = length(digits) / 2 " bytes, version " value(substr(digits, 7, 4)) ", " goals " goals, "
    words = words value(substr(digits, 13, 2)) " variables, head " members(substr(digits, 17, 16))
    words = words ", ground " members(substr(digits, 33, 16)) "\n            "
    fixed = value(substr(digits, 7, 4)) == 2 ? 38 : 18
    at = 49
    for (goal = 1; goal <= goals && goal <= 32 && at + fixed <= length(digits); goal++) {
        long = value(substr(digits, at + fixed - 2, 2))
        words = words goal " " clear(substr(digits, at + fixed, 2 * long), 0) " " members(substr(digits, at, 16))
        if (fixed == 38) words = words " knowing " members(substr(digits, at + 16, 16)) \
            " of " value(substr(digits, at + 32, 4)) " ticks"
        words = words "; "
        at += fixed + 2 * long
    }
    pairs = value(substr(digits, 15, 2))
    if (pairs > 0) words = words "independent "
    for (; pairs > 0 && at + 3 <= length(digits); pairs--) {
        words = words value(substr(digits, at, 2)) "-" value(substr(digits, at + 2, 2)) " "
        at += 4
    }
    return length(words) > 500 ? substr(words, 1, 500) ".." : words
}

# The hexadecimal field of an answer, if it has one.
function text_of(answer, words, count) {
    count = split(answer, words, " ")
    if (words[1] == "ok" && operation ~ /^(form|mel|text|sheet)$/) return words[count]
    return ""
}

# The first byte in which two texts differ, less a few, where they are long.
function window(one, other, low, high, middle) {
    if (length(one) <= 600 && length(other) <= 600) return 0
    high = length(one) < length(other) ? length(one) : length(other)
    while (low < high) {
        middle = int((low + high + 1) / 2)
        if (substr(one, 1, middle) == substr(other, 1, middle)) low = middle
        else high = middle - 1
    }
    return low < 80 ? 0 : int(low / 2) - 40
}

function print_answer(word, answer, from, fields) {
    printf "  %-9s %s\n", word, short(answer)
    if (text_of(answer) != "") printf "            %s\n", clear(text_of(answer), from)
    if (answer !~ /^ok /) return
    if (operation ~ /^(start|tick)$/) printf "            %s\n", state(answer, 2)
    if (operation == "passes") printf "            %s pass%s, the last of which adds nothing\n", substr(answer, 4), (answer == "ok 1" ? "" : "es")
    if (operation == "run") {
        split(answer, fields, " ")
        printf "            last working tick %s, all ticks %s, heaviest chain %s\n", fields[2], fields[3], fields[4]
    }
}

function print_case(fields) {
    split(question, fields, " ")
    printf "%s: %s\n  %-9s %s\n", name, about, "asked", short(question)
    printf "            %s\n", record(fields[3])
    if (operation == "check") printf "            text %s\n", clear(fields[4], 0)
    if (operation == "tick") printf "            %s\n", state(question, 4)
    if (operation ~ /^(start|run)$/) printf "            %s heads\n", fields[4]
}

function compare(given, from) {
    if ((getline given < answers) <= 0) given = "(no answer)"
    sub(/\r$/, "", given)
    given = tolower(given)
    if (given == "skip") skipped[operation]++
    else if (given == expected) agree++
    else if (++differ <= 3) {
        from = window(text_of(expected), text_of(given))
        print_case()
        print_answer("expected", expected, from)
        print_answer("given", given, from)
    }
}

function asked(names, count) {
    count = split(wanted, names, " ")
    if (count == 0) return 1
    for (; count > 0; count--)
        if (name == names[count] || index(name, names[count] ".") == 1 || index(name, names[count] "/") == 1)
            return 1
    return 0
}

{ sub(/\r$/, "") }
FNR == 1 {
    file = FILENAME
    sub(/.*\//, "", file)
    sub(/\.txt$/, "", file)
    group = file
    about = substr($0, 1, 2) == "# " ? substr($0, 3) : "a case without a group"
}
/^# [a-z0-9-]+: / {
    group = file "/" substr($2, 1, length($2) - 1)
    about = substr($0, index($0, ": ") + 2)
    count = 0
}
/^#/ || /^$/ { next }
{
    name = group "." ++count
    if (!asked()) next
    at = index($0, " = ")
    question = substr($0, 1, at - 1)
    expected = substr($0, at + 3)
    operation = $1
    if (mode == "list") print name "  " about
    else if (mode == "questions") print question
    else if (mode == "compare") compare()
    else {
        print_case()
        print_answer("expected", expected, 0)
    }
}
END {
    if (mode != "compare") exit
    while ((getline line < answers) > 0) surplus++
    if (surplus > 0) printf "%s: %d lines more than questions\n", file, surplus
    if (status != 0) printf "%s: the program ended with status %d\n", file, status
    differ += surplus + (status != 0)
    for (operation in skipped) {
        print "skip", operation, skipped[operation]
        skips += skipped[operation]
    }
    printf "%6d agree %6d differ %6d skipped  %s\n", agree, differ, skips, FILENAME
}
