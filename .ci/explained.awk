# Prints, for a table of c65_test_commands, a command over each wrong and each right text of docs/EXPLAIN.md.
/^## / { finish(); code = $2 == "error" ? $3 + 0 : 0 }
code && /^    wrong: / { wrong = wrong (wrong == "" ? "" : "\\n") text_of($0) }
code && /^    right: / { right = right (right == "" ? "" : "\\n") text_of($0) }
END { finish() }

function text_of(line) {
    line = substr(line, 12)
    gsub(/\\/, "&&", line)
    return line
}

function finish() {
    if (wrong != "") {
        print "new 0"
        print "file main.c int main(void) { return 0; }"
        print "file wrong_" code ".c " wrong
        print "file right_" code ".c " right "\\nint last;"
        print "do build wrong_" code ".c main.c"
        print "do build right_" code ".c main.c"
    }
    wrong = right = ""
}
