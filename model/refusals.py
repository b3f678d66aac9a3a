"""The refusals: docs/RULES.md, "Refusals"."""

NAMES = {
    1: "Utf8", 2: "TooLong", 3: "Date", 4: "Header", 5: "Directive", 6: "StrayLine", 7: "Account", 8: "Amount",
    9: "UnknownCommodity", 10: "Decimals", 11: "CommodityStyle", 12: "Cost", 13: "CostNotExact", 14: "Assignment",
    15: "Virtual", 16: "Marks", 17: "TwoBlanks", 18: "Unbalanced", 20: "UnknownBranch", 21: "BranchName",
    22: "CommodityExists", 23: "Full", 24: "MarkClash", 25: "ReservedMark", 26: "ReservedAccount", 27: "Locked",
    28: "Limit", 29: "ClaimFailed", 30: "SameBranch", 31: "UnknownTransfer", 32: "WrongBranch",
    33: "AlreadyReceived", 34: "TooEarly", 35: "LockBack", 36: "NothingToClose", 37: "BadAccount", 38: "BadAmount",
    39: "BadId", 43: "Damaged", 44: "Request", 45: "ReadFault", 47: "TooMuch", 48: "Changed",
}  # fmt: skip


class Refused(Exception):
    """A refusal: its number, the line of a journal's text that it names, or what else its answer line says."""

    def __init__(self, number, line=None, more=""):
        super().__init__(number, line, more)
        self.number, self.line, self.more = number, line, more

    def answer(self):
        """FORMATS, "Answer lines"."""
        line = "" if self.line is None else f" line {self.line}"
        return f"refused {self.number} {NAMES[self.number]}{line}{self.more}\n"


class Repeated(Exception):
    """The command was taken before with the same content, and changes nothing."""


def refuse_if(condition, number, line=None):
    """One refusal of a list of them in their order: RULES, "Orders"."""
    if condition:
        raise Refused(number, line)
