# Makes of preprocessed sources what lsrace reads, for lsrace-cc. Lines keep their numbers.
#
#     awk -v own=FOLDER -v used_externs=FILE -f tidy.awk EXTERNS SOURCE.i...     writes SOURCE.i.tidy for each SOURCE.i
#
# - Of the definitions in lsrace's own headers, those in FOLDER, which stand between `#pragma lsrace begin NAME` and `end`, it
#   leaves those whose name is used; one that isn't static is left in the first source alone that uses it.
# - `errno = a` becomes the expression `errno, a`: an errno is the thread's own, so what it is assigned is dropped.
# - FILE gets those names of EXTERNS that are used, and declared by one of these headers: a program's own function of such a name
#   is no function of a library.

function is_mark(text) { return text ~ /^# [0-9]+ "/ }

function note_words(text, into,    words, count, i) {
    gsub(/[^A-Za-z0-9_]+/, " ", text)
    count = split(text, words, " ")
    for (i = 1; i <= count; i++) into[words[i]] = 1
}

# What a source has: its lines, which of them are in which definition, and the words of the program itself.
function read_line(text) {
    lines[++length_of] = text
    if (is_mark(text)) {
        is_own = index(text, " \"" own "/") > 0
        return
    }
    if (text ~ /^#pragma lsrace begin /) {
        sub(/^#pragma lsrace begin /, "", text)
        definition = text
        body[definition] = ""
    } else if (text ~ /^#pragma lsrace end/) {
        definition = ""
    } else if (definition != "") {
        body[definition] = body[definition] text "\n"
    } else {
        if (is_own) note_words(text, declared)
        else note_words(text, used)
    }
    in_definition[length_of] = definition
}

# A kept definition may use others.
function keep_used(    name, again) {
    do {
        again = 0
        for (name in body) {
            if (!(name in used) || name in kept) continue
            kept[name] = 1
            again = 1
            note_words(body[name], used)
        }
    } while (again)
    for (name in kept) {
        if (body[name] ~ /^[ \n]*static /) continue
        if (name in defined) delete kept[name]
        defined[name] = 1
    }
}

# The comma stands where the sign of assignment stood; the preprocessor may put it on the next line.
function without_assigned_errno(text,    out, at) {
    if (after_errno && text ~ /^ *=([^=]|$)/) sub(/=/, ",", text)
    if (text ~ /[^ ]/ && !is_mark(text)) after_errno = text ~ /lsrace_errno\(\) *$/
    while (match(text, /lsrace_errno\(\) *=([^=]|$)/)) {
        at = RSTART + index(substr(text, RSTART), "=") - 1
        out = out substr(text, 1, at - 1) ","
        text = substr(text, at + 1)
    }
    return out text
}

function write_source(to,    i, name) {
    keep_used()
    after_errno = 0
    for (i = 1; i <= length_of; i++) {
        name = in_definition[i]
        if (lines[i] ~ /^#pragma lsrace / || (name != "" && !(name in kept))) print "" > to
        else print without_assigned_errno(lines[i]) > to
    }
    close(to)
    for (name in used) if (name in externs && name in declared) used_of_externs[name] = 1
    split("", body); split("", kept); split("", used); split("", declared); split("", in_definition)
    length_of = 0
    definition = ""
    is_own = 0
}

FILENAME == ARGV[1] { externs[$0] = 1; next }
FNR == 1 && source != "" { write_source(source ".tidy") }
{ source = FILENAME; read_line($0) }
END {
    if (source != "") write_source(source ".tidy")
    printf "" > used_externs
    for (name in used_of_externs) print name > used_externs
}
