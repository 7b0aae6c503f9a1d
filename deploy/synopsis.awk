# Writes the forms of the commands in Markdown, for the SYNOPSIS of the manual page, from the two tables of
# docs/COMMANDS.md: what each word is, and which words a command takes. Each of them takes --explain.
# usage: awk -f deploy/synopsis.awk docs/COMMANDS.md
BEGIN {
    FS = " *\\| *"
    count = split("--requests --idle --control --now --seconds --random", names, " ")
    for (at = 1; at <= count; at++) may_be_omitted[names[at]] = 1
}

# A word with its value; one that may be omitted is in brackets.
function form(command, word,    text) {
    text = word ~ /^--/ ? word : "*" word "*"
    if (word in value) text = text " *" value[word] "*"
    if (word in may_be_omitted || word in flag || (command == "policy" && word != "--policy")) return "[" text "]"
    return text
}

# The forms of a list of words in backticks.
function forms(command, list,    count, words, at, text) {
    gsub(/[`,;]/, "", list)
    count = split(list, words, " ")
    for (at = 1; at <= count; at++) text = text " " form(command, words[at])
    return substr(text, 2)
}

# What a command takes: words, or files in whose place a socket may be given, and then words.
function takes(command, cell,    files, rest) {
    if (cell !~ / or /) return forms(command, cell)
    files = cell
    sub(/;.*/, "", files)
    rest = cell ~ /;/ ? substr(cell, index(cell, ";") + 1) : ""
    sub(/ or .*/, "", files)
    return "(" forms(command, files) " | " form(command, "--via") ")" (rest == "" ? "" : " " forms(command, rest))
}

/^\|/ { words = $2; gsub(/`/, "", words) }
# | `--db FILE` | what it is |
/^\| `--/ {
    count = split(words, names, " ")
    if (count == 1) flag[names[1]] = 1
    else value[names[1]] = names[2]
}
/^\|/ && heading == "Command" && $2 ~ /^`/ {
    count = split(words, names, ", ")
    for (at = 1; at <= count; at++) printf "**custody %s** %s [--explain]\\\n", names[at], takes(names[at], $3)
}
/^\|/ && $2 !~ /^(`|---)/ { heading = $2 == "Command" && $3 == "Takes" ? "Command" : "" }
!/^\|/ { heading = "" }
END { print "**custody** [*COMMAND*] (--help | -V | --version)" }
