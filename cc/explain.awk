# Prints lsrace's lines and behind a refusal, for lsrace-cc, the line of the source with a caret and what can be done about it.
#
#     awk -f explain.awk REFUSALS.md ERRORS
#
# REFUSALS.md has the sentences: an item for each number, which begins with `- **NUMBER ` and has one `  - write: `, and an item
# for some names, which begins with "- `".

# Whether one of these names, as `sem_*`, `realloc`, is this one.
function is_among(names, name,    parts, count, i) {
    gsub(/[` ]/, "", names)
    count = split(names, parts, ",")
    for (i = 1; i <= count; i++) {
        if (parts[i] == name) return 1
        if (parts[i] ~ /[*]$/ && index(name, substr(parts[i], 1, length(parts[i]) - 1)) == 1) return 1
    }
    return 0
}

function show_line(file, line, column,    text, number, blanks) {
    number = 0
    while ((getline text < file) > 0 && ++number < line) continue
    close(file)
    if (number != line) return
    if (length(text) > 300) { # of a long line what is near
        number = column > 60 ? column - 60 : 1
        text = substr(text, number, 100)
        column -= number - 1
    }
    blanks = substr(text, 1, column - 1)
    gsub(/[^\t]/, " ", blanks)
    printf "%5d | %s\n      | %s^\n", line, text, blanks
}

function tell(label, text,    words, count, i, line) {
    count = split(text, words, " ")
    line = "  " label ":"
    for (i = 1; i <= count; i++) {
        if (length(line) + length(words[i]) > 99) {
            print line
            line = "        "
        }
        line = line " " words[i]
    }
    if (count > 0) print line
}

function explain(number, name,    i, advice) {
    advice = remedy[number]
    for (i = 1; i <= names && name != ""; i++) {
        if (is_among(names_of[i], name)) {
            advice = instead[i]
            break
        }
    }
    tell("means", meaning[number])
    tell("write", advice)
}

# A line of REFUSALS.md. A field goes on in lines that are indented and begin no item.
function read_help(text,    at) {
    if (text ~ /^- \*\*[0-9][0-9] /) {
        number = substr(text, 5, 2)
        field = "means"
    } else if (text ~ /^- `/) {
        names++
        field = "instead"
    } else if (text ~ /^  - write: /) {
        field = "write"
    } else if (text !~ /^  +[^- ]/) {
        field = ""
    }
    at = field == "" ? 0 : index(text, ": ")
    if (text ~ /^ *- /) {
        if (field == "instead") names_of[names] = substr(text, 3, at - 3)
        text = substr(text, at + 2)
    }
    sub(/^ +/, " ", text)
    if (field == "means") meaning[number] = meaning[number] text
    else if (field == "write") remedy[number] = remedy[number] text
    else if (field == "instead") instead[names] = instead[names] text
}

FILENAME == ARGV[1] { read_help($0); next }
{ print }
match($0, /:[0-9]+:[0-9]+: refused [0-9]+ [A-Za-z]+/) {
    split(substr($0, RSTART + 1), place, /[: ]+/) # the line, the column, `refused`, the number, the word and perhaps a name
    show_line(substr($0, 1, RSTART - 1), place[1], place[2])
    explain(place[4], place[6])
}
