# Script and log side by side: awk -f side.awk SCRIPT LOG. The script's column is as wide as its longest line, up to the longest that
# a step can have.
function plain(s) {
    gsub(/\t/, " ", s)
    gsub(/[^ -~]/, "?", s)
    return length(s) > width ? substr(s, 1, width - 3) "..." : s
}
function row(left, right) { return sprintf("%-" width "s |", plain(left)) (right == "" ? "" : " " plain(right)) }
BEGIN { width = 40; longest = 114 }
FILENAME == ARGV[1] {
    script[FNR] = $0; lines = FNR
    if (length($0) > width) width = (length($0) < longest) ? length($0) : longest
    next
}
{ print row(script[FNR], $0); shown = FNR }
END { for (i = shown + 1; i <= lines; i++) print row(script[i], "") }
