# Makes the manual page fringewell(3) of the header: its comments become paragraphs, its declarations blocks that are not filled.
# usage: awk -v version=VERSION -v papers=FOLDER -f manual.awk fringewell.h     FOLDER is where the papers are installed
BEGIN {
  WIDTH = 72
  print ".TH FRINGEWELL 3 \"\" \"Fringewell " version "\" \"C library\""
}

# a line that begins with a dot or an apostrophe would be a request
function put(line) { print (line ~ /^[.']/ ? "\\&" : "") line }

function escaped(text) {
  gsub(/\\/, "\\e", text)
  gsub(/-/, "\\-", text)
  return text
}

# each sentence on a line of its own; what stands between backquotes is bold
function paragraph(text,    parts, part, i) {
  code_ends()
  begins()
  explained = 1
  parts = split(escaped(text), part, "`")
  text = part[1]
  for (i = 2; i <= parts; i++)
    text = text (i % 2 ? "\\fR" : "\\fB") part[i]
  while (match(text, /\. [A-Z\\]/)) {
    put(substr(text, 1, RSTART))
    text = substr(text, RSTART + 2)
  }
  put(text)
}

# a section begins with a paragraph, and so does not say it
function section(title) {
  code_ends()
  print ".SH \"" toupper(title) "\""
  begun = 1
}

function begins() {
  if (!begun) print ".PP"
  begun = 0
}

# behind a title's colon, or in its brackets, is a sentence or a citation
function titled(title,    rest) {
  match(title, /: | \(|$/)
  rest = substr(title, RSTART + 2)
  section(substr(title, 1, RSTART - 1))
  if (sub(/\)$/, "", rest)) paragraph("See " rest ".")
  else if (rest != "") paragraph(toupper(substr(rest, 1, 1)) substr(rest, 2) ".")
}

function code(line) {
  if (!in_code) {
    begins()
    print ".nf"
  }
  in_code = 1
  line = escaped(line)
  gsub(/'/, "\\(aq", line)
  put(line)
}

function code_ends() {
  if (in_code) print ".fi"
  in_code = 0
}

# code in one line, on as many as it needs: broken behind a mark, with a tail behind all but the last, and the others indented so far
function broken(line, margin, mark, tail, indent,    head) {
  while (length(margin line) > WIDTH && match(substr(line, 1, WIDTH - length(margin)), ".*" mark)) {
    head = substr(line, 1, RLENGTH)
    sub(/ $/, "", head)
    code(margin head tail)
    line = substr(line, RLENGTH + 1)
    margin = indent
  }
  code(margin line)
}

# an empty line behind a declaration that had a comment of its own
function gap() {
  if (in_code && apart) code("")
  apart = 0
}

# a line of a struct or an enum: its comment behind it where that has room, else in front of it
function member(line,    remark) {
  if (match(line, / *\/\*/)) {
    remark = substr(line, RSTART + RLENGTH - 2)
    line = substr(line, 1, RSTART - 1)
    if (length(line " " remark) <= WIDTH) line = line " " remark
    else broken(remark, "    ", " ", "", "       ")
  }
  code(line)
}

# a comment by itself: perhaps a section's title, and then paragraphs, and samples of code, which are indented
function comment(count,    i, text) {
  for (i = 1; i <= count; i++) {
    if (text != "" && (said[i] == "" || said[i] ~ /^    /)) { paragraph(text); text = "" }
    if (said[i] ~ /^---- .* ----$/) titled(substr(said[i], 6, length(said[i]) - 10))
    else if (said[i] ~ /^    /) code(said[i])
    else text = text (text == "" || said[i] == "" ? "" : " ") said[i]
  }
  if (text != "") paragraph(text)
}

# the first comment: each of its lines that is not indented begins a paragraph; its first sentence has the name
function opening(count,    i, text, name) {
  name = said[1]
  sub(/\. .*/, "", name)
  sub(/.*: /, "", name)
  section("name")
  paragraph("fringewell - " name)
  section("synopsis")
  code("#include <fringewell.h>")
  code("")
  code("cc program.c $(pkg-config --cflags --libs fringewell)")
  section("description")
  for (i = 1; i <= count; i++) {
    if (said[i] !~ /^  / && text != "") { paragraph(text); text = "" }
    sub(/^ +/, "", said[i])
    text = text (text == "" ? "" : " ") said[i]
  }
  if (text != "") paragraph(text)
  section("version, numbers and tags")
}

# skipped: what other machines and C++ get, guards and the like, macros that are for other macros here, and bodies
/^#if(def)? / { conditional = 1 }
conditional { conditional = !/^#endif/; next }
/^#(ifndef|endif|undef|include) ?/ || /^#define FRINGEWELL_H$/ { next }
/^#define FRINGEWELL_(LENT|WRITE|NINTH|KEYS[_0-9]*)\(/ { internal = 1 }
internal { internal = /\\$/; next }
body { body = !/^[}]/; next }

# the layout, which is for the compiler
/^\/\* ---- The layout / { exit }

/^\/\*/ { commented = 1; lines = 0 }
commented {
  commented = !/\*\/$/
  sub(/ ?\*\/$/, "")
  sub(/^(\/| )\* ?/, "")
  said[++lines] = $0
  if (!commented && !opened++) opening(lines)
  else if (!commented) comment(lines)
  next
}

/^$/ { apart = explained; explained = 0; next }

/^#define / { gap(); broken($0, "", " ", " \\", "    "); next }

/^(typedef struct|enum) [{]$/ { apart = 1; gap(); members = 1; code($0); next }
members {
  held = held $0
  gsub(/ +/, " ", held)
  if (held ~ /\/\*/ && held !~ /\*\//) next
  if (/^[}]/) { members = 0; code(held) } else member("   " held)
  held = ""
  next
}

# a declaration, to its semicolon or to its body
{
  sub(/^ +/, " ")
  held = held $0
  if (!/[;{]$/) next
  body = sub(/ [{]$/, ";", held)
  sub(/^static inline /, "", held)
  gap()
  broken(held, "", "(, |[(])", "", "        ")
  held = ""
}

END {
  section("files")
  paragraph("The papers are in " papers ".")
}
