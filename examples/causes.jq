# What an answer could not apply, a line for each: the id of the modification, and its cause in plain words (docs/EDITS.md).
def plain: {
  "TargetMissing": "a provision that it names is not in the text",
  "AnchorMissing": "the place at which it stands is not in the text",
  "OldTextMissing": "the words that it looks for do not stand there, or not so often",
  "KindsDiffer": "the two provisions are of different kinds",
  "NumberTaken": "the number is taken by another provision",
  "TooDeep": "the text would be more than 12 levels deep",
  "TooManyNodes": "the text would have more provisions than the act allows",
  "TextTooLong": "a heading or a content would have more than 16,384 bytes"
}[.];
.unapplied[] | "\(.id): \(.cause | plain)"
