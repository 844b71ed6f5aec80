"""The stand-in's productions: a request to plan or to freeze one, with its refusals in their order, and the question for one."""
import re

from stand_in_rules import Refused

COLUMNS = {"BEGDOC", "ENDDOC", "BEGATTACH", "ENDATTACH", "PAGECOUNT", "DESIGNATION", "WITHHELD", "TEXTPATH"}
MOST = 1000
REQUEST = dict(id=str, volume=str, prefix=str, width=range(256), fields=list)
REQUEST["from"] = REQUEST["to"] = int


def is_settled(doc):
    return doc.call is not None and (doc.call[1] == "Produce" or doc.confirmer != 0)


class Productions:
    """Those of a matter; `of_doc` has the id of that in which a document stands."""

    def __init__(self, matter):
        self.matter, self.kept, self.prefixes, self.of_doc = matter, [], {}, {}

    def find(self, name):
        return next((kept for kept in self.kept if kept["request"]["id"] == name), None)

    def produced(self):
        """The families that stand in a production."""
        return {self.matter.docs[item["doc"] - 1].parent for kept in self.kept for item in kept["items"]}

    def see(self, name):
        kept = self.find(name)
        if kept is None:
            raise Refused("NoProduction")
        return self.view(kept)

    def view(self, kept):
        request, items = kept["request"], kept["items"]
        return dict(first=items[0]["first"], id=request["id"], items=items, last=items[-1]["last"], prefix=request["prefix"],
                    volume=request["volume"], width=request["width"])

    def rows(self):
        """Each production without its documents."""
        return [dict(self.view(kept), items=len(kept["items"]), **{"from": kept["request"]["from"], "to": kept["request"]["to"]})
                for kept in self.kept]

    def plan(self, body):
        """What a freeze answers; nothing is kept of it."""
        return self.view(self.asked(body)[0])

    def freeze(self, body):
        made, is_new = self.asked(body)
        if is_new:
            request, items = made["request"], made["items"]
            self.prefixes[request["prefix"]] = (request["width"], items[-1]["last"] + 1)
            self.kept.append(made)
            self.of_doc.update((item["doc"], request["id"]) for item in items)
        return self.view(made)

    def asked(self, body):
        """The production of a request, and whether it is a new one."""
        request = {name: body[name] for name in REQUEST}
        kept = self.find(request["id"])
        if kept is not None:
            if kept["request"] != request:
                raise Refused("RequestDiffers")
            return kept, False
        self.check_request(request)
        docs = self.selected(request)
        first = self.prefixes.get(request["prefix"], (0, 1))[1]
        items = []
        for doc in docs:
            treatment = doc.call[1]
            last = first + (1 if treatment.startswith("Withhold") else len(doc.files)) - 1
            items.append(dict(doc=doc.number, first=first, last=last, treatment=treatment))
            first = last + 1
        if first - 1 > 10 ** request["width"] - 1:
            raise Refused("BatesFull", 10 ** request["width"] - 1)
        if len(self.kept) == MOST:
            raise Refused("MatterFull", 7, MOST + 1)
        return dict(request=request, items=items), True

    def check_request(self, request):
        prefix, fields = request["prefix"], request["fields"]
        if not (re.fullmatch("[A-Z0-9_][A-Z0-9_-]{0,11}(?<![0-9])", prefix) and 4 <= request["width"] <= 10):
            raise Refused("BadPrefix")
        if not (re.fullmatch("[A-Za-z0-9_-]{1,32}", request["id"]) and re.fullmatch("[A-Z0-9_-]{1,32}", request["volume"])):
            raise Refused("BadVolume")
        if any(kept["request"]["volume"] == request["volume"] for kept in self.kept):
            raise Refused("VolumeTaken")
        if len(set(fields)) < len(fields) or COLUMNS & set(fields):
            raise Refused("FieldChoice")
        if not set(fields) <= set(self.matter.fields):
            raise Refused("NoField")
        width = self.prefixes.get(prefix, (request["width"],))[0]
        if width != request["width"]:
            raise Refused("PrefixDiffers", width)
        if not 1 <= request["from"] <= request["to"] <= len(self.matter.docs):
            raise Refused("RangeEmpty")

    def selected(self, request):
        docs = self.matter.docs[request["from"] - 1 : request["to"]]
        around = {doc.parent for doc in self.matter.docs[: request["from"] - 1] + self.matter.docs[request["to"] :]}
        gone = self.produced()
        for rule, holds in (
            ("SplitFamily", lambda doc: doc.parent in around),
            ("Unsettled", lambda doc: doc.parent not in gone and not is_settled(doc)),
        ):
            found = next((doc for doc in docs if holds(doc)), None)
            if found is not None:
                raise Refused(rule, found.number)
        wanted = {doc.parent for doc in docs if doc.call and doc.call[0]} - gone
        if not wanted:
            raise Refused("NothingResponsive")
        return [doc for doc in docs if doc.parent in wanted]
