# ringcheck report --profile wide --ring MM --gap MM --format json MANIFEST > FILE.json
# jq -r --arg file MANIFEST -f junit.jq FILE.json: the XML of JUnit. Of a report it has a case for each finding, skipped where it is waived; of
# a measure or of a report without findings one case that passes; of a refusal one that fails. `--arg file` gives the manifest its name. Without
# `--profile wide` the report is of the profile strict, which takes least on trust: only flashed discs, rectangles and obrounds are pads there.
# text as XML has it: control bytes as blanks, and U+FFFE and U+FFFF, which XML forbids, as U+FFFD
def xml:
  gsub("[[:cntrl:]]"; " ") | explode | map(if . == 65534 or . == 65535 then 65533 else . end) | implode
  | gsub("&"; "&amp;") | gsub("<"; "&lt;") | gsub(">"; "&gt;") | gsub("\""; "&quot;");
# a length in pm as millimetres, each digit of it
def mm:
  if . < 0 then "-" + (- . | mm)
  else ((. / 1e9 | floor) as $whole | "\($whole).\("000000000\(. - $whole * 1e9)"[-9:])" | sub("\\.?0+$"; "")) end;
def place: if .from_pm == .to_pm then "\(.from_pm[0] | mm),\(.from_pm[1] | mm)"
  else "\(.from_pm[0] | mm),\(.from_pm[1] | mm) to \(.to_pm[0] | mm),\(.to_pm[1] | mm)" end;
def hole($files): "hole \(.hole) of \($files[.drill - 1].name) at \(place)";
# what a finding measures, the rule for it, and why
def measured($rules):
  if .kind == "gap" then "gap \(.has_pm | mm) mm (rule \($rules.gap_pm | mm) mm)"
  elif .has_pm != null then "annular ring \(.has_pm | mm) mm (rule \($rules.ring_pm | mm) mm), \(.cause)"
  elif .cause == "none" then "no pad at the hole"
  elif .cause == "drawn" then "annular ring not judged, only drawn copper"
  else "annular ring not judged, \(.cause)" end;
# what is refused: the file by its name, the file of waivers, or the manifest, by its name if that is given
def refused: if .waivers then "waivers" elif .name then .name else $ARGS.named.file // "manifest" end;
# why it is refused, and where: only what the report says
def stopped:
  if .result == "device" then "cannot be read" else .result end + if .reason then " \(.reason)" else "" end
  + if .place then " at place \(.place)" else "" end + if .byte then ", byte \(.byte)" else "" end;
def suite($tests; $failures; $skipped):
  "<testsuite name=\"ringcheck\" tests=\"\($tests)\" failures=\"\($failures)\" skipped=\"\($skipped)\">";
def case($name; $inner): "  <testcase classname=\"ringcheck\" name=\"\($name | xml)\">\($inner)</testcase>";
def failure: "<failure message=\"\(xml)\"/>";
def skipped: "<skipped message=\"\(xml)\"/>";
. as $report
| if .result == "measured" then
    suite(1; 0; 0),
    case("measured"; "")
  elif .findings == null then
    suite(1; 1; 0),
    case(refused; stopped | failure)
  elif .findings == [] then
    suite(1; 0; 0),
    case("rings and gaps"; "")
  else
    ([.findings[] | select(.waived != null)] | length) as $waived
    | suite(.findings | length; (.findings | length) - $waived; $waived),
    (.findings[]
    | "#\(.number) \(measured($report.rules))" as $text
    | case(
        if .kind == "ring" then "\($report.files[.layer - 1].name): \(.at | hole($report.files))"
        else "\(.at | hole($report.files)), \(.and | hole($report.files))" end;
        if .waived != null then "\($text), waived: \(.waived)" | skipped else $text | failure end))
  end,
  "</testsuite>"
