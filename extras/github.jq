# ringcheck report --profile wide --ring MM --gap MM --format json MANIFEST > FILE.json
# jq -r --arg file MANIFEST -f github.jq FILE.json: the annotations of a GitHub job. Of a report one for each finding, a notice where it is
# waived; of a measure or of a report without findings one notice; of a refusal one error. Each points to a file of the repository, the
# manifest: a finding to the row of its layer, or of the drill file of its first hole. Without `--arg file` they point to no file. GitHub shows
# ten annotations of a step: of more findings these are the first ten, the waived ones last, below a line that counts all. Without
# `--profile wide` the report is of the profile strict, which takes least on trust: only flashed discs, rectangles and obrounds are pads there.
# text as a command of the service has it. Its log shows that on lines of its own, where `##[` is a command in an older form: so a name neither
# begins a line nor has that
def data: gsub("[\r\n]"; " ") | gsub("##\\["; "## [") | gsub("%"; "%25");
def title: data | gsub(":"; "%3A") | gsub(","; "%2C");
# a length in pm as millimetres, each digit of it
def mm:
  if . < 0 then "-" + (- . | mm)
  else ((. / 1e9 | floor) as $whole | "\($whole).\("000000000\(. - $whole * 1e9)"[-9:])" | sub("\\.?0+$"; "")) end;
def place: if .from_pm == .to_pm then "\(.from_pm[0] | mm),\(.from_pm[1] | mm)"
  else "\(.from_pm[0] | mm),\(.from_pm[1] | mm) to \(.to_pm[0] | mm),\(.to_pm[1] | mm)" end;
def hole($files): "hole \(.hole) of \($files[.drill - 1].name) at \(place)";
# what a finding measures, the rule for it, and why
def measured($rules):
  if .kind == "gap" then "gap \(.has_pm | mm) mm (rule \($rules.gap_pm | mm) mm)"
  elif .has_pm != null then "annular ring \(.has_pm | mm) mm (rule \($rules.ring_pm | mm) mm), \(.cause)"
  elif .cause == "none" then "no pad at the hole"
  elif .cause == "drawn" then "annular ring not judged, only drawn copper"
  else "annular ring not judged, \(.cause)" end;
# what is refused: the file by its name, the file of waivers, or the manifest, by its name if that is given
def refused: if .waivers then "waivers" elif .name then .name else $ARGS.named.file // "manifest" end;
# why it is refused, and where: only what the report says
def stopped:
  refused + if .result == "device" then " cannot be read" elif .reason then ": \(.reason)" else "" end
  + if .place then " at place \(.place)" else "" end + if .byte then ", byte \(.byte)" else "" end;
# where an annotation points: its row of the manifest, below the header
def at($row): if $ARGS.named.file then "file=\($ARGS.named.file | title),line=\($row + 1)," else "" end;
def notice($row; $heading; $text): "::notice \(at($row))title=\($heading | title)::\($text | data)";
def error($row; $heading; $text): "::error \(at($row))title=\($heading | title)::\($text | data)";
def annotation($row; $heading; $text):
  if .waived != null then notice($row; $heading; "\($text), waived: \(.waived)") else error($row; $heading; $text) end;
# the line above the annotations, where not all findings have one
def count: "\(length) findings" + (map(select(.waived != null)) | if length > 0 then ", \(length) of them waived" else "" end) + ": ten are shown";
. as $report
| if .result == "measured" then
    notice(0; "ringcheck"; "measured")
  elif .findings == null then
    error(.file // 0; "ringcheck \(.result)"; stopped)
  elif .findings == [] then
    notice(0; "ringcheck"; .result)
  else
    (.findings | if length > 10 then count else empty end),
    (.findings
    | if length > 10 then sort_by(.waived != null) | .[:10] else . end
    | .[]
    | if .kind == "ring" then
        annotation(.layer; "#\(.number) ring on \($report.files[.layer - 1].name)"; "\(.at | hole($report.files)): \(measured($report.rules))")
      else
        annotation(.at.drill; "#\(.number) gap"; "\(.at | hole($report.files)), \(.and | hole($report.files)): \(measured($report.rules))")
      end)
  end
