# Puts answers together. Its input is the lines as strings, and $list the names that were to be answered, each with a NUL after it.
($list | split("\u0000") | map(select(. != ""))) as $names
| [inputs | fromjson? // {broken: .}] as $lines
| ($lines | map(select(.broken | not))) as $answers
| ($answers | map(select(.ended | not).status)) as $statuses
| ($answers | map(.file) | unique) as $told
| {
    fonts: ($names | unique | length),
    lines: ($lines | length),
    accepted: ($statuses | map(select(. == 0)) | length),
    refused: ($statuses | map(select(. == 1)) | length),
    faults: ($statuses | map(select(. == 2)) | length),
    out_of_bounds: ($statuses | map(select(. == 3)) | length),
    ended: ($answers | map(select(.ended)) | length),
    broken: ($lines | length - ($answers | length)),
    lost: (($names | unique) - $told),
    twice: ($answers | group_by([.file, .face, .ended]) | map(select(length > 1)[0].file) | unique),
    strange: ($told - $names)
  }
