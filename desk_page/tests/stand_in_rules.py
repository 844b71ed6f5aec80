"""The rules of review by their names and numbers, the status of an answer, and who may ask for what."""
ROLES = {"Reviewer", "Second", "Lead", "Clerk", "Receiver"}
REVIEWERS, CHECKERS = {"Reviewer", "Second", "Lead"}, {"Second", "Lead"}
INSIDERS = ROLES - {"Receiver"}
BASES = {"AC", "WP", "PI", "TS"}
TREATMENTS = {"Produce", "Redact"} | {"Withhold-" + basis for basis in BASES}
RULES = dict(KeyUnknown=9, NoDocument=10, NoPage=11, RoleRefused=12, BoxOutside=13, BoxShape=14, WrongTreatment=15,
             BoxesRemain=16, BadBasis=17, NotCalled=18, SamePerson=19, NothingRedacted=20, EntryMissing=21, NoField=22,
             TextRefused=23, RangeEmpty=24, SplitFamily=25, Unsettled=26, NothingResponsive=27, RequestDiffers=28, BadPrefix=29,
             PrefixDiffers=30, BatesFull=31, BadVolume=32, NoProduction=33, MatterFull=35, StaffThere=36, FieldChoice=40,
             VolumeTaken=41, HeadRefused=101, BodyRefused=102, BodyLimit=103, KeyMissing=104, NoRoute=105, TermRefused=140)
STATUS = dict(KeyUnknown=401, KeyMissing=401, RoleRefused=403, NoDocument=404, NoPage=404, NoRoute=404, NoProduction=404,
              HeadRefused=400, BodyRefused=400, BodyLimit=413)


class Refused(Exception):
    def __init__(self, name, a=0, b=0):
        super().__init__(name)
        self.name, self.a, self.b = name, a, b

    def status(self):
        return STATUS.get(self.name, 409)

    def told(self):
        return dict(a=self.a, b=self.b, line=0, name=self.name, rule=RULES[self.name])
