# Makes of jiter_c.h its manual page: the comment at its head, and then each section with its declarations.
# Usage: awk -v version=0.18.0 -f manual.awk jiter_c.h

# A text as troff takes it: a backslash is not an escape, a hyphen is a minus, and no text begins a request.
function plain(text) {
  gsub(/\\/, "\\e", text)
  gsub(/-/, "\\-", text)
  return text ~ /^[.']/ ? "\\&" text : text
}

# The comment at the head: each paragraph begins with what it is about, as `Pointers.`
!begun && /^#ifndef/ { begun = 1; print ".SH DECLARATIONS\n.nf"; next }
!begun {
  sub(/^(\/\*| \*) ?/, "")
  sub(/ *\*\/$/, "")
  if (NR == 1) {
    print ".TH JITER_C 3 \"\" \"jiter " version "\"\n.SH NAME\njiter_c \\- JSON for C"
    print ".SH SYNOPSIS\n.B #include <jiter_c.h>\n.PP\ncc program.c $(pkg\\-config \\-\\-cflags \\-\\-libs jiter)\n.SH DESCRIPTION"
    sub(/^[^.]*\. */, "")
  }
  print $0 == "" ? ".PP" : plain($0)
  next
}

# The rest as it is, without what only a compiler reads.
/^#(if|ifdef|ifndef|endif|include)/ || /^_Static_assert/ || /^extern "C" \{/ { next }
{ print plain($0) }
END { print ".fi" }
