# Prints what sources need of lib/: `file PATH` for each of its files, and `missing NAME` for each header that is
# found neither in a folder nor in lib/include nor in the compiler. A file of lib/ is needed where its header is
# included and one of its names stands in the code, also where a needed file of lib/ does so. Groups of #if are not
# looked at, so it may be more than is used.
# Variables: lib; sources and folders, one a line; strict, 1 where only C90's names are wanted.

BEGIN {
    split("stdio.h stdlib.h string.h stddef.h limits.h stdint.h stdarg.h", names, " ")
    for (i in names) built_in[names[i]] = 1
    read_table(lib "/files")
    folder_count = split(folders, folder, "\n") - 1
    source_count = split(sources, source, "\n") - 1
    for (i = 1; i <= source_count; i++) read_source(source[i], 1)
    do {
        taken_now = 0
        for (i = 1; i <= entry_count; i++)
            if (!taken[i] && is_needed(i)) {
                taken[i] = ++taken_now
                read_source(lib "/" file_of[i], 1)
            }
    } while (taken_now)
    for (i = 1; i <= entry_count; i++)
        if (taken[i]) print "file " lib "/" file_of[i]
    for (name in missing) print "missing " name
}

# A line of the table is: header, file, names. One that begins with + is beyond C90.
function read_table(path,    line, word, count, first, i) {
    while ((getline line < path) > 0) {
        if (line ~ /^#/ || line ~ /^[ \t]*$/) continue
        count = split(line, word, " ")
        first = word[1] == "+" ? 2 : 1
        if (first == 2 && strict) continue
        header_of[++entry_count] = word[first]
        file_of[entry_count] = word[first + 1]
        for (i = first + 2; i <= count; i++) names_of[entry_count] = names_of[entry_count] " " word[i]
    }
    close(path)
}

function is_needed(entry,    word, count, i) {
    if (!(header_of[entry] in asked)) return 0
    count = split(names_of[entry], word, " ")
    for (i = 1; i <= count; i++) if (word[i] in named) return 1
    return 0
}

# Learns the headers that a file includes and, if its names count, the names in its code.
function read_source(path, counts,    line, word, count, i, in_comment) {
    if (path in seen) return
    seen[path] = 1
    while ((getline line < path) > 0) {
        if (!in_comment && line ~ /^[ \t]*#[ \t]*include[ \t]*["<]/) include(path, line)
        code = ""
        in_comment = strip(line, in_comment)
        if (!counts) continue
        count = split(code, word, /[^A-Za-z0-9_]+/)
        for (i = 1; i <= count; i++) named[word[i]] = 1
    }
    close(path)
}

# Leaves in code what is neither comment nor string, and answers whether a comment is open behind the line.
function strip(line, in_comment,    at) {
    while (line != "") {
        if (in_comment) {
            at = index(line, "*/")
            if (!at) return 1
            line = substr(line, at + 2)
            in_comment = 0
        } else if (match(line, /\/\*|\/\/|"([^"\\]|\\.)*"|'([^'\\]|\\.)*'/)) {
            code = code substr(line, 1, RSTART - 1) " "
            at = substr(line, RSTART, 2)
            if (at == "//") return 0
            in_comment = at == "/*"
            line = substr(line, RSTART + (in_comment ? 2 : RLENGTH))
        } else {
            code = code line
            return 0
        }
    }
    return in_comment
}

function include(path, line,    quoted, name, i, place) {
    quoted = line ~ /include[ \t]*"/
    sub(/^[^"<]*["<]/, "", line)
    name = line
    sub(/[">].*/, "", name)
    place = path
    if (!sub(/[^\/]*$/, "", place)) place = ""
    if (quoted && is_there(place name)) { read_source(place name, 1); return }
    for (i = 1; i <= folder_count; i++)
        if (is_there(folder[i] "/" name)) { read_source(folder[i] "/" name, 1); return }
    if (is_there(lib "/include/" name)) { asked[name] = 1; read_source(lib "/include/" name, 0) }
    else if (!(name in built_in)) missing[name] = 1
}

function is_there(path,    line, answer) {
    answer = (getline line < path) >= 0
    close(path)
    return answer
}
