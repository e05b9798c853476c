# What a page puts in backticks exists. Used by .ci/docs: awk -v page=PAGE -f .ci/mentions.awk NAMES FILES CRATES PAGE, where NAMES is what
# .ci/names prints, FILES the repository's files and folders, CRATES the crates. Its status is not 0 if something is missing.
# What stands in backticks is one of these:
# - a path, below the root or crates/: has a `/` or a known ending. `crate/edit` is an edit. A bare file name is, in docs/CLAIMS.md, in the
#   folder that the column's heading or the last path of the paragraph names; on the other pages anywhere. `.ending`: some file has it.
# - a name, which must be declared: in a file (a folder) if it directly follows that, alone or in a list, if the column's heading names it,
#   or if `name` (`file`), `name` of `file` or `name` in `file` is said; else anywhere. `crate::name` is in that crate; `Type::name`,
#   `Type.name` and `name` of `Type`, also by a column's heading, are in that type. `_end` or `start_`: some declared name has it.
#   On the other pages a crate's name will do.
# - a command: has a space, and its first word is a path or a program named below.
# - else an expression: each of its words of three letters and more is a name.
# A single letter, also with an index as in `r_i`, is a variable or a printed letter. Beyond that only these words go unasked:
BEGIN {
  n = split("requires ensures result impl enum mut bool u16 set clone std", word, " ") # of the language and of the kit's library
  for (i = 1; i <= n; i++) known[word[i]] = 1
  program["valgrind"] = known["second"] = 1 # not of this repository; the second program's file
  claims = page == "docs/CLAIMS.md"
}
function wrong(text) { print page ":" (ended ? " " : FNR ": ") text; bad = 1 }
function declared(name, where, token) { # where: a file, a folder with its last `/`, or "" for anywhere
  names++
  if (where == "" ? name in any || !claims && name in crate : (where, name) in inside) {
    if (where ~ /must-fail\/$/) mentioned[where name ".edit"] = 1
  } else wrong("`" token "` is not declared" (where == "" ? "" : " in " where) (name in any ? ", but in " any[name] : ""))
}
function owned(type, name, token) { names++; if (!((type, name) in of)) wrong("`" token "`: " type " has no " name) }
function named(name, where, token,   part, n) { # where: also `type:X` for what stands in the type X
  if (name in known || length(name) == 1 || name ~ /^[a-z]_[a-z]$/) return
  if (sub(/^type:/, "", where)) { owned(where, name, token); return }
  n = split(name, part, /::|\./)
  if (n == 1 || where != "") declared(part[n], where, token)
  if (n == 2 && part[1] in crate || n == 3) declared(part[n], "crates/" part[1] "/", token)
  if (n == 2 && !(part[1] in crate) || n == 3) owned(part[n - 1], part[n], token)
}
function path_of(token,   edit) { # the path that is meant, "" if there is none
  if (token !~ /\// && !claims) return token in base ? token : ""
  if (token !~ /\//) token = folder token
  if (token "/" in path || "crates/" token "/" in path) token = token "/"
  edit = "crates/" token ".edit"
  sub(/\/[^\/]*$/, "/must-fail&", edit)
  if (edit in path) mentioned[edit] = 1
  return token in path ? token : "crates/" token in path ? "crates/" token : edit in path ? edit : ""
}
function affix(token,   name) {
  for (name in any) if (token ~ /^_/ ? substr(name, length(name) - length(token) + 1) == token : index(name, token) == 1) return 1
  wrong("`" token "`: no declared name has it")
}
function expression(token,   rest, w) {
  w = substr(token, 1, index(token, " ") - 1)
  if (w in program || w in path) return
  for (rest = token; match(rest, /[A-Za-z][A-Za-z0-9_'.:-]*/); rest = substr(rest, RSTART + RLENGTH)) {
    w = substr(rest, RSTART, RLENGTH)
    sub(/[.:]+$/, "", w)
    if (length(w) > 2) named(w, "", token)
  }
}
function scan(text, where,   part, n, i, j, token, sep, last, list, m, p) { # where: what the column's heading names
  n = split(text, part, "`")
  if (part[1] !~ /^ *$/) where = ""
  for (i = 2; i <= n; i += 2) {
    token = part[i]
    sep = part[i - 1]
    if (last == "path" && sep !~ /^(:? | \()$/ || last == "name" && sep !~ /^( \([^()]*\))?(,|,? and| \.\.)( fields?)? $/) where = ""
    if (token !~ /[ :]/ && (token ~ /\// || token ~ /^[^.].*\.(antt|rt|rs|md|txt)$/)) {
      paths++
      where = path_of(token)
      if (where == "") wrong("`" token "`: there is no such file")
      else if (sep ~ /^ (of|in) $/ || sep == " (" && part[i + 1] ~ /^\)/) for (j = 1; j <= m; j++) named(list[j], where, list[j])
      if (where ~ /\//) { folder = where; sub(/[^\/]*$/, "", folder) }
      last = "path"
      m = 0
      continue
    }
    if (sep == " of " && token in owner) for (j = 1; j <= m; j++) owned(token, list[j], list[j])
    if (sep !~ /^(,|,? and| \.\.) $/) m = 0
    last = "name"
    if (!(token in any) && token ~ /^_[A-Za-z]|[A-Za-z0-9]_$/) affix(token)
    else if (token in any || token ~ /^[A-Za-z][A-Za-z0-9_'.:-]*[A-Za-z0-9_']$/) { named(token, where, token); list[++m] = token }
    else if (token ~ /^\.[a-z]+$/) { if (!(token in ending)) wrong("`" token "`: no file ends so") }
    else expression(token)
  }
  return where
}
function heading(text, last) { # what a column's heading binds its cells to: `.. (path)`, or `.. of Type`
  if (text ~ /\(`[^`]*`\) *$/) return last
  if (!sub(/^.* of `/, "", text) || !sub(/` *$/, "", text)) return ""
  return "type:" text
}
FILENAME == ARGV[1] {
  any[$3] = $1; inside[$1, $3] = 1; of[$2, $3] = 1; owner[$2] = 1
  p = $1; sub(/.*\//, "", p); inside[p, $3] = 1
  for (p = $1; sub(/[^\/]+\/?$/, "", p) && p != "crates/";) inside[p, $3] = 1
  if ($1 ~ /\.edit$/) edits[$1] = 1
  next
}
FILENAME == ARGV[2] { path[$0] = 1; sub(/.*\//, ""); base[$0] = 1; if (match($0, /\.[a-z]+$/)) ending[substr($0, RSTART)] = 1; next }
FILENAME == ARGV[3] { crate[$0] = 1; next }
{ text = text $0 }
/^ *$/ { folder = "" }
!/^\|/ { table = 0; scan($0, "") }
/^\|/ {
  n = split($0, cell, "|")
  for (c = 2; c < n; c++) {
    folder = table ? home[c] : ""
    p = scan(cell[c], table ? head[c] : "")
    if (!table) { head[c] = heading(cell[c], p); home[c] = folder }
  }
  table = 1
}
END {
  ended = 1
  if (claims) {
    for (p in edits) { edit_count++; if (!(p in mentioned)) wrong("the edit " p " is not mentioned") }
    for (p in crate) { crate_count++; if (text !~ "`" p "(/|::)") wrong("the crate " p " is not mentioned") }
  }
  if (!bad) print page ": " paths " files and " names " names exist" (claims ? "; all " edit_count " edits and " crate_count " crates are mentioned" : "")
  exit bad
}
