# Makes of a program's `--help` its manual page, or with -v form=completion the words that bash offers after its name.
# Usage: PROGRAM --help | awk -v name=PROGRAM [-v form=completion] -f manual.awk

# A text as troff takes it: a backslash is not an escape, a hyphen is a minus, and no text begins a request.
function plain(text) {
  gsub(/\\/, "\\e", text)
  gsub(/-/, "\\-", text)
  return text ~ /^[.']/ ? "\\&" text : text
}

# The first sentence, without its full stop.
function first_sentence(text) {
  sub(/[.:] .*/, "", text)
  sub(/\.$/, "", text)
  return text
}

function add(text) { page = page text "\n" }

# A row of a list: what is written, two spaces or more, and what it does.
function row(line,    written) {
  sub(/^ +/, "", line)
  written = line
  sub(/  .*/, "", written)
  add(".TP\n.B " plain(written))
  sub(/^ +/, "", line)
  if (index(line, "  ")) {
    sub(/.*  +/, "", line)
    add(plain(line))
  }
  if (match(written, /--[a-z-]+/)) words = words " " substr(written, RSTART, RLENGTH)
  else if (written ~ /^[a-z]/) words = words " " written
}

/^ / { row($0); next }
/^Usage: / {
  sub(/^Usage: [^ ]*/, "")
  usage = plain($0)
  next
}
/^(Arguments|Options):$/ { add(".SH " toupper(substr($0, 1, length($0) - 1))); listed = 1; next }
/^Exit status: / { add(".SH EXIT STATUS"); sub(/^Exit status: /, ""); add(plain($0)); next }
/./ {
  if (summary == "") summary = first_sentence($0)
  if (listed) { add(".SH NOTES"); listed = 0 }
  else if (usage == "") { about = about plain($0) "\n.PP\n"; next }
  add(plain($0))
}

END {
  if (form == "completion") {
    print "complete -o default -W \"" substr(words, 2) "\" " name
    exit
  }
  print ".TH " toupper(name) " 1"
  print ".SH NAME\n" plain(name) " \\- " plain(summary)
  print ".SH SYNOPSIS\n.B " plain(name) "\n" substr(usage, 2)
  printf ".SH DESCRIPTION\n%s%s", about, page
}
