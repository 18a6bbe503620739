# ringcheck report --profile wide --ring MM --gap MM --format json MANIFEST > FILE.json
# jq --arg file MANIFEST -f gitlab.jq FILE.json: the findings as GitLab's code quality reports have them. Each points to the manifest, to the
# row of its layer, or of the drill file of its first hole. Its fingerprint says which hole and layer it is, or which holes, and has no number
# of the finding: so a finding stays the same one while others come and go. A waived one is of the severity `info`. A measure and a report
# without findings give an empty list, a refusal one entry. Without `--profile wide` the report is of the profile strict, which takes least on
# trust: only flashed discs, rectangles and obrounds are pads there.
# a length in pm as millimetres, each digit of it
def mm:
  if . < 0 then "-" + (- . | mm)
  else ((. / 1e9 | floor) as $whole | "\($whole).\("000000000\(. - $whole * 1e9)"[-9:])" | sub("\\.?0+$"; "")) end;
def place: if .from_pm == .to_pm then "\(.from_pm[0] | mm),\(.from_pm[1] | mm)"
  else "\(.from_pm[0] | mm),\(.from_pm[1] | mm) to \(.to_pm[0] | mm),\(.to_pm[1] | mm)" end;
def hole($files): "hole \(.hole) of \($files[.drill - 1].name) at \(place)";
# what a finding measures, the rule for it, and why
def measured($rules):
  if .kind == "gap" then "gap \(.has_pm | mm) mm (rule \($rules.gap_pm | mm) mm)"
  elif .has_pm != null then "annular ring \(.has_pm | mm) mm (rule \($rules.ring_pm | mm) mm), \(.cause)"
  elif .cause == "none" then "no pad at the hole"
  elif .cause == "drawn" then "annular ring not judged, only drawn copper"
  else "annular ring not judged, \(.cause)" end;
# what is refused: the file by its name, the file of waivers, or the manifest, by its name if that is given
def refused: if .waivers then "waivers" elif .name then .name else $ARGS.named.file // "manifest" end;
def stopped:
  refused + if .result == "device" then " cannot be read" else ": \(.result)" end + if .reason then " \(.reason)" else "" end
  + if .place then " at place \(.place)" else "" end + if .byte then ", byte \(.byte)" else "" end;
# where an entry points: its row of the manifest, below the header
def entry($row; $name; $severity; $print; $text):
  {description: $text, check_name: $name, fingerprint: $print, severity: $severity,
   location: {path: ($ARGS.named.file // "manifest"), lines: {begin: ($row + 1)}}};
. as $report
| if .findings != null then
    .files as $files
    | [.findings[]
      | (if .kind == "ring" then "\(.at | hole($files)) on \($files[.layer - 1].name)" else "\(.at | hole($files)), \(.and | hole($files))" end) as $where
      | entry(if .kind == "ring" then .layer else .at.drill end; "ringcheck-\(.kind)"; if .waived != null then "info" else "major" end; "\(.kind) \($where)";
          "#\(.number) \($where): \(measured($report.rules))" + if .waived != null then ", waived: \(.waived)" else "" end)]
  elif .result == "measured" then []
  else [entry(.file // 0; "ringcheck-\(.result)"; "blocker"; stopped; stopped)] end
