# Turns the header into the description of a manual page. With the variable `synopsis` set, only the
# declarations of the calls are written.
BEGIN { RS = "" }

function literal(text) { return ".Bd -literal\n" text "\n.Ed" }

# In the header's comments, code is indented by four spaces.
function code(text) {
    gsub(/\n \*(     )?/, "\n", text)
    sub(/^    /, "", text)
    gsub(/\\/, "\\e", text)
    return literal(text)
}

# A sentence begins a line, as manual pages want it.
function fill(text, word, count, line, at) {
    count = split(text, word, " ")
    for (at = 1; at <= count; at++) {
        if (line != "" && (line ~ /\.$/ || length(line) + length(word[at]) > 50)) {
            print line
            line = ""
        }
        line = line (line == "" ? (word[at] ~ /^[.']/ ? "\\&" : "") : " ") word[at]
    }
    print line
}

/^\/\*/ && !/__GNUC__/ {
    end = index($0, "*/")
    comment = substr($0, 4, end - 5)
    declaration = substr($0, end + 3)
    gsub(/DURATION_STR_(MUST_USE|AT_LEAST|NONNULL\([0-9, ]*\))[ \n]*|#(ifndef|define) DURATION_STR_H\n?/, "", declaration)
    sub(/\n\{.*/, ";", declaration)
    gsub(/\\/, "\\e", declaration)
    is_call = match(declaration, /duration_str_[a-z_]+\(/)
    if (synopsis) {
        if (is_call)
            print literal(declaration)
        next
    }
    if (is_call)
        print ".Ss " substr(declaration, RSTART, RLENGTH - 1) "\n.nh\n" literal(declaration)
    count = split(comment, paragraph, /\n \*\n \* /)
    for (at = 1; at <= count; at++) {
        if (paragraph[at] ~ /^    /) {
            print code(paragraph[at])
            continue
        }
        gsub(/\n \*/, "", paragraph[at])
        if (NR > 1 || at > 1)
            print ".Pp"
        fill(paragraph[at])
    }
    if (declaration != "" && !is_call)
        print literal(declaration)
}
