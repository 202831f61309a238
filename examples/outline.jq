# The text of an answer as an outline: a line for each provision, with its num, its eId (and its wId where that differs), its heading and its
# content, indented by its depth.
def flat: gsub("\\s+"; " ") | sub("^ "; "") | sub(" $"; "");
def words: [.heading, .content] | map(flat | select(. != "")) | join(": ");
def names: if .wId then "\(.eId), wId \(.wId)" else .eId end;
def outline($indent): .[] | ("\($indent)\(.num). [\(names)] \(words)" | sub(" $"; "")), (.children | outline($indent + "  "));
.body | outline("")
