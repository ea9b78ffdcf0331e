# For a page by help2man: no word is parted, and examples keep their lines.
s/^\.TH .*/&\n.nh\n.ad l/
/^\.S[HS] "?Example/I,/^\.PP$|^\.SH "SEE ALSO"$/ {
    s/^\.IP$/.IP\n.nf/
    s/^(\.PP|\.SH "SEE ALSO")$/.fi\n\1/
}
