"""A rule that a volume breaks, and the names of the rules (docs/STATUSES.md)."""

NAMES = {
    9: "KeyUnknown", 10: "NoDocument", 11: "NoPage", 12: "RoleRefused", 13: "BoxOutside", 14: "BoxShape",
    15: "WrongTreatment", 16: "BoxesRemain", 17: "BadBasis", 18: "NotCalled", 19: "SamePerson", 20: "NothingRedacted",
    21: "EntryMissing", 22: "NoField", 23: "TextRefused", 24: "RangeEmpty", 25: "SplitFamily", 26: "Unsettled",
    27: "NothingResponsive", 28: "RequestDiffers", 29: "BadPrefix", 30: "PrefixDiffers", 31: "BatesFull",
    32: "BadVolume", 33: "NoProduction", 34: "BatchDiffers", 35: "MatterFull", 36: "StaffThere", 38: "NoFile",
    40: "FieldChoice", 41: "VolumeTaken", 42: "MatterThere", 43: "NoMatter", 50: "DatShape", 51: "DatEncoding",
    52: "DatColumns", 53: "OptShape", 54: "FileAbsent", 55: "FileTooLong", 57: "WordShape", 58: "WordOutside",
    59: "WordsPage", 60: "FamilyBroken", 61: "DocBreaks", 62: "PageLimit", 63: "PathRefused", 70: "T6ShortData",
    71: "T6EarlyEnd", 72: "T6Extension", 73: "T6BadCode", 74: "T6BadPlace", 80: "TiffHead", 81: "TiffBounds",
    82: "TiffMissing", 83: "TiffType", 84: "TiffCompression", 85: "TiffMeaning", 86: "TiffManyPages",
    87: "TiffStrips", 90: "KeptRowBad", 110: "CheckColumns", 111: "CheckLabel", 112: "CheckGap", 113: "CheckBreaks",
    114: "CheckCount", 115: "ManifestShape", 116: "DigestDiffers", 117: "NotListed",
}


class Rule(Exception):
    """A broken rule: its number, line and two values."""

    def __init__(self, number, a=0, b=0, line=0):
        super().__init__(number, a, b, line)
        self.number, self.a, self.b, self.line = number, a, b, line

    def at(self, line):
        return Rule(self.number, self.a, self.b, line)

    def told(self):
        return f"refused {self.number} {NAMES[self.number]} {self.line} {self.a} {self.b}"
