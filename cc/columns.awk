# Moves the tokens of preprocessed sources to where they stand in the files that line marks name, so that the places of a
# report are those of the text that was written, behind macros and across lines, too. Blanks and line marks alone change.
#
#     awk -f columns.awk SOURCE.i...     writes SOURCE.i.moved for each SOURCE.i
#
# The tokens of a preprocessed line are matched with those of its lines in the file, as a longest common subsequence. What a
# macro expands to stands where the macro's name does.

function spaces(count) {
    if (count <= 0) return ""
    if (blanks == "") blanks = " "
    while (length(blanks) < count) blanks = blanks blanks # awks bound the width of sprintf
    return substr(blanks, 1, count)
}

# The tokens of a text, behind those that the lists have already; `gaps` says before which of them are blanks.
function split_tokens(text, tokens, columns, gaps, count,    at, length_of_text, gap, rest) {
    at = 1
    gap = 1
    length_of_text = length(text)
    while (at <= length_of_text) {
        rest = substr(text, at)
        if (match(rest, /^[ \t\f\v\r]+/)) {
            at += RLENGTH
            gap = 1
            continue
        }
        if (!match(rest, /^[A-Za-z_][A-Za-z0-9_]*/) && !match(rest, /^\.?[0-9]([eEpP][-+]|[A-Za-z0-9_.])*/) &&
            !match(rest, /^"([^"\\]|\\.)*"/) && !match(rest, /^'([^'\\]|\\.)*'/) &&
            !match(rest, /^(\.\.\.|<<=|>>=|->|\+\+|--|<<|>>|<=|>=|==|!=|&&|[|][|]|[-+*\/%&|^]=)/)) RLENGTH = 1
        tokens[++count] = substr(rest, 1, RLENGTH)
        columns[count] = at
        gaps[count] = gap
        gap = 0
        at += RLENGTH
    }
    return count
}

# A file's lines, with blanks in the place of comments.
function read_file(name,    path, text, number, result, rest) {
    path = name
    gsub(/\\"/, "\"", path)
    gsub(/\\\\/, "\\", path)
    number = 0
    is_open_comment = 0
    while ((getline text < path) > 0) source_line[name, ++number] = without_comments(text)
    close(path)
    source_length[name] = number
}

function without_comments(text,    result, end) {
    if (!is_open_comment && index(text, "/*") == 0 && index(text, "//") == 0) return text
    result = ""
    while (text != "") {
        if (is_open_comment) {
            end = index(text, "*/")
            if (end == 0) return result spaces(length(text))
            result = result spaces(end + 1)
            text = substr(text, end + 2)
            is_open_comment = 0
        } else if (match(text, /"([^"\\]|\\.)*"|'([^'\\]|\\.)*'|\/[*]|\/\//)) {
            result = result substr(text, 1, RSTART - 1)
            if (substr(text, RSTART, 2) == "//") return result
            if (substr(text, RSTART, 2) == "/*") is_open_comment = 1
            result = result (is_open_comment ? "  " : substr(text, RSTART, RLENGTH))
            text = substr(text, RSTART + RLENGTH)
        } else {
            return result text
        }
    }
    return result
}

function without_end(text) { sub(/[ \t\r]+$/, "", text); return text }

# Goes on at a line of a file, by empty lines or by a mark.
function go_to(name, line) {
    if (name == out_name && line >= out_line && line - out_line < 4) {
        while (out_line < line) { print "" > out_file; out_line++ }
    } else if (name == out_name) {
        print "# " line > out_file
    } else {
        print "# " line " \"" name "\"" > out_file
    }
    out_name = name
    out_line = line
}

function put_line(text) { print text > out_file; out_line++ }

# Which token of the lines is each token of the preprocessed text: a longest common subsequence of names, numbers and literals,
# and the signs beside them.
function match_tokens(count, others,    first, i, j, n, m, best) {
    split("", same)
    n = m = 0
    for (i = 1; i <= count; i++) if (tokens[i] ~ /^[A-Za-z_0-9."']/) words[++n] = i
    for (j = 1; j <= others; j++) if (written[j] ~ /^[A-Za-z_0-9."']/) written_words[++m] = j
    while (n > 0 && m > 0 && tokens[words[n]] == written[written_words[m]]) same[words[n--]] = written_words[m--]
    for (first = 1; first <= n && first <= m && tokens[words[first]] == written[written_words[first]]; first++)
        same[words[first]] = written_words[first]
    if ((n - first) * (m - first) > 200000) return
    for (j = first; j <= m + 1; j++) best[n + 1, j] = 0
    for (i = n; i >= first; i--) {
        best[i, m + 1] = 0
        for (j = m; j >= first; j--) {
            if (tokens[words[i]] == written[written_words[j]]) best[i, j] = best[i + 1, j + 1] + 1
            else best[i, j] = best[i + 1, j] > best[i, j + 1] ? best[i + 1, j] : best[i, j + 1]
        }
    }
    i = j = first
    while (i <= n && j <= m) {
        if (tokens[words[i]] == written[written_words[j]] && best[i, j] == best[i + 1, j + 1] + 1)
            same[words[i++]] = written_words[j++]
        else if (best[i + 1, j] >= best[i, j + 1]) i++
        else j++
    }
    split("", taken)
    for (i in same) taken[same[i]] = 1
    for (i = 2; i <= count; i++) if (i - 1 in same) match_sign(i, same[i - 1] + 1)
    for (i = count - 1; i >= 1; i--) if (i + 1 in same) match_sign(i, same[i + 1] - 1)
}

# The parenthesis of a macro's arguments isn't one of what the macro expands to.
function match_sign(i, j) {
    if (i in same || j < 1 || j in taken || tokens[i] != written[j]) return
    if (tokens[i] == "(" && j > 1 && written[j - 1] ~ /^[A-Za-z_]/ && tokens[i - 1] != written[j - 1]) return
    same[i] = j
    taken[j] = 1
}

# Where tokens stand that nothing matches: at the macro, a name between their neighbours, or where there is none, at the macro
# before; those that stand among the lines all the same, as a macro's argument that it has twice, there; and a parenthesis
# before an argument with it.
function place_others(count, others,    i, j, before, behind, macro) {
    split("", begins)
    split("", macro_of)
    split("", last_of)
    before = 0
    macro = 0
    for (i = 1; i <= count; i++) {
        if (i in same) {
            for (j = before + 1; j <= same[i]; j++) last_of[written[j]] = j
            before = same[i]
            continue
        }
        if (i == 1 || i - 1 in same) {
            for (j = i; j <= count && !(j in same); j++) continue
            behind = j <= count ? same[j] : others + 1
            for (j = before + 1; j < behind; j++) {
                if (written[j] ~ /^[A-Za-z_]/) {
                    begins[i] = macro = j
                    break
                }
            }
        }
        macro_of[i] = macro
        if (tokens[i] == "(" && i + 1 in same) begins[i] = same[i + 1]
        if (!(i in begins) && tokens[i] ~ /^[A-Za-z_]/ && tokens[i] in last_of) begins[i] = last_of[tokens[i]]
    }
}

# Whether a column isn't within a macro's name, or a short way behind it.
function is_away(macro, column,    ways) {
    ways = column - written_columns[macro]
    return ways < 0 || ways > 8 && ways > length(written[macro])
}

function put_moved(count,    i, at, buffer, column, line) {
    buffer = ""
    column = 1
    line = out_line
    for (i = 1; i <= count; i++) {
        at = i in same ? same[i] : i in begins ? begins[i] : 0
        if (!at && macro_of[i] && is_away(macro_of[i], column)) at = macro_of[i]
        if (at && (line != written_line[at] || column > written_columns[at] ||
            (gaps[i] && buffer != "" && column == written_columns[at]))) {
            if (buffer != "") put_line(buffer)
            if (out_line != written_line[at]) go_to(out_name, written_line[at])
            line = written_line[at]
            buffer = ""
            column = 1
        }
        if (at) {
            buffer = buffer spaces(written_columns[at] - column)
            column = written_columns[at]
        } else if (gaps[i] && buffer != "") {
            buffer = buffer " "
            column++
        }
        buffer = buffer tokens[i]
        column += length(tokens[i])
    }
    put_line(buffer)
}

# The lines of a file from this one on: behind it those in which parentheses are still open.
function read_written(name, line,    others, before, depth, last) {
    others = depth = 0
    last = line + 40
    do {
        before = others
        others = split_tokens(source_line[name, line], written, written_columns, written_gaps, others)
        while (before < others) {
            written_line[++before] = line
            depth += (written[before] == "(") - (written[before] == ")")
        }
        line++
    } while (depth > 0 && line <= source_length[name] && line < last)
    last_written = line - 1
    return others
}

# Moves the preprocessed lines from number i on that belong together, and returns the number of the last.
function move_lines(i,    name, line, count, others) {
    name = name_of[i]
    line = line_of[i]
    if (!(name in source_length)) read_file(name)
    if (line > source_length[name] || without_end(text_of[i]) == without_end(source_line[name, line])) {
        go_to(name, line)
        put_line(text_of[i])
        return i
    }
    others = read_written(name, line)
    count = split_tokens(text_of[i], tokens, columns, gaps, 0)
    while (i < length_of && name_of[i + 1] == name && line_of[i + 1] >= line && line_of[i + 1] <= last_written &&
        text_of[i + 1] !~ /^ *#/)
        count = split_tokens(text_of[++i], tokens, columns, gaps, count)
    match_tokens(count, others)
    place_others(count, others)
    go_to(name, line)
    put_moved(count)
    return i
}

function write_moved(to,    i) {
    out_file = to
    out_name = ""
    out_line = 0
    printf "" > out_file
    for (i = 1; i <= length_of; i++) {
        if (text_of[i] !~ /[^ \t]/) continue
        if (text_of[i] ~ /^ *#/ || name_of[i] ~ /^</) {
            go_to(name_of[i], line_of[i])
            put_line(text_of[i])
        } else {
            i = move_lines(i)
        }
    }
    close(to)
    split("", text_of)
    length_of = 0
}

FNR == 1 {
    if (source != "") write_moved(source ".moved")
    source = FILENAME
    name = ""
    line = 1
}
/^# [0-9]+ "/ {
    line = $2
    name = $0
    sub(/^# [0-9]+ "/, "", name)
    sub(/"[ 0-9]*$/, "", name)
    next
}
/^# [0-9]+$/ { line = $2; next }
{
    text_of[++length_of] = $0
    name_of[length_of] = name
    line_of[length_of] = line++
}
END { if (source != "") write_moved(source ".moved") }
