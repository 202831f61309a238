"""What was chosen on the way from a document to a dossier, each by its grade."""
import datetime

SAME, MAPPED, BESIDE, ASSUMED, LOST = "same", "mapped", "beside", "assumed", "lost"
GRADES = {
    SAME: "the desk has it as it is",
    MAPPED: "changed by a rule that can be undone",
    BESIDE: "kept in the dressing, since the desk has no place for it",
    ASSUMED: "not said by the document, and chosen",
    LOST: "in no output",
}


class Report:
    def __init__(self, is_end_included=False):
        # (groups: those of which the last day was told)
        self.lines, self.counts, self.is_end_included, self.groups = [], dict.fromkeys(GRADES, 0), is_end_included, set()

    def say(self, grade, what, path="", line=0):
        self.counts[grade] += 1
        if grade != SAME:
            self.lines.append((grade, path, line or 0, " ".join(what.split())))

    def ended(self, group, end):
        """The first day that is not in a group: Akoma Ntoso does not say whether the day on which an interval ends is."""
        day = datetime.date.fromisoformat(end) + datetime.timedelta(self.is_end_included)
        if (group, end) not in self.groups:
            self.groups.add((group, end))
            self.say(ASSUMED, f"the period {group} ends before {day}" + ("" if self.is_end_included else f": {end} itself is not in it (--end-included takes it in)"))
        return day.isoformat()

    def lost(self):
        return [f"{path}:{line}: {what}" if path else what for grade, path, line, what in self.lines if grade == LOST]

    def text(self):
        out = ["The words are proved, their dress is tested. What was chosen when these documents were carried in:", ""]
        for grade, meaning in GRADES.items():
            found = [it for it in self.lines if it[0] == grade]
            out.append(f"{grade} ({meaning}): {self.counts[grade]}")
            out += [f"  {path}:{line}: {what}" if path else f"  {what}" for _, path, line, what in found]
        return "\n".join(out) + "\n"
