"""How producers call the columns of a DAT, and which of this profile they are."""
import csv
import re

BEGDOC, ENDDOC, BEGATTACH, ENDATTACH, PAGECOUNT, TEXTPATH = "BEGDOC ENDDOC BEGATTACH ENDATTACH PAGECOUNT TEXTPATH".split()
PARENT, RANGE, NATIVE = "PARENT", "ATTACHRANGE", "NATIVEPATH"
# letters and digits of the name in capitals; of several that are there the first counts
USUAL = {
    BEGDOC: "BEGDOC BEGBATES BEGINBATES BATESBEG BATESBEGIN PRODBEG PRODBEGBATES BEGPROD PRODBEGDOC BEGNO BEGDOCNO BEGINDOC FIRSTBATES"
            " STARTBATES BATESSTART BATESFROM BEGPRODBATES PRODUCTIONBEGBATES PRODUCTIONBEGINBATES BATESNUMBERBEGIN BEGINNINGBATES"
            " BEGCONTROL BEGINNUMBER BATESBEGINNUMBER CONTROLNUMBER BATES BATESNUMBER DOCID",
    ENDDOC: "ENDDOC ENDBATES ENDINGBATES BATESEND PRODEND PRODENDBATES ENDPROD PRODENDDOC ENDNO ENDDOCNO LASTBATES STOPBATES BATESSTOP"
            " BATESTO ENDPRODBATES PRODUCTIONENDBATES PRODUCTIONENDINGBATES BATESNUMBEREND ENDCONTROL ENDNUMBER BATESENDNUMBER",
    BEGATTACH: "BEGATTACH BEGATT BEGINATTACH BEGATTACHMENT PRODBEGATTACH BEGFAMILY FAMILYBEGIN BEGBATESATTACH BATESBEGATTACH"
               " PRODBEGATT BEGINFAMILY ATTACHBEGIN ATTBEG ATTACHSTART FAMILYSTART GROUPIDENTIFIER GROUPID FAMILYID BEGRANGE"
               " PRODUCTIONBEGATTACH BATESBEGINATTACH ATTACHMENTBEGIN",
    ENDATTACH: "ENDATTACH ENDATT ENDATTACHMENT PRODENDATTACH ENDFAMILY FAMILYEND ENDBATESATTACH BATESENDATTACH PRODENDATT ATTACHEND"
               " ATTEND ATTACHSTOP FAMILYSTOP ENDRANGE PRODUCTIONENDATTACH ATTACHMENTEND",
    PARENT: "PARENT PARENTID PARENTBATES PARENTDOC PARENTDOCID PARENTBEGBATES PARENTBATESBEG ATTACHPARENT PARENTBEGDOC",
    RANGE: "ATTACHRANGE ATTACHMENTRANGE FAMILYRANGE BATESRANGEATTACH GROUPRANGE",
    PAGECOUNT: "PAGECOUNT PAGES PGCOUNT NUMPAGES PAGECNT PGS NUMBEROFPAGES IMAGECOUNT IMGCOUNT PRODPAGECOUNT PAGESCOUNT",
    TEXTPATH: "TEXTPATH TEXTLINK OCRPATH EXTRACTEDTEXT EXTRACTEDTEXTPATH TEXTFILE TEXTFILEPATH FULLTEXT FULLTEXTPATH TXTPATH TEXT"
              " OCRTEXTPATH TEXTPRECEDENCE PRODTEXTPATH OCRTEXT TEXTFILELINK",
    NATIVE: "NATIVEPATH NATIVELINK NATIVEFILE NATIVEFILELINK NATIVEFILEPATH FILEPATHNATIVE DOCLINK LINK",
}
LONGEST = 1000  # letters of a name that are looked at


class BadMap(Exception):
    """The file of --map says something that can't be; says what."""


def plain(name):
    return re.sub("[^A-Z0-9]", "", name[:LONGEST].upper())


def map_columns(columns, told=None):
    """For each of our names the place of the producer's column, as far as there is one; `told` maps their names to ours."""
    told = {plain(theirs): ours for theirs, ours in (told or {}).items()}
    titles, found = [plain(column) for column in columns], {}
    for ours, names in USUAL.items():
        places = [(0, at) for at, title in enumerate(titles) if told.get(title) == ours]
        for rank, name in enumerate(names.split(), 1):
            places += [(rank, at) for at, title in enumerate(titles) if title == name and title not in told]
        if places:
            found[ours] = min(places)[1]
    return found


def read_map(path):
    """The file of --map: a line `THEIR NAME,OUR NAME` each."""
    with open(path, encoding="utf-8-sig", newline="") as file:
        rows = [row for row in csv.reader(file) if any(row)]
    told = {}
    for number, row in enumerate(rows, 1):
        if len(row) != 2 or row[1].strip().upper() not in USUAL:
            raise BadMap(f"line {number}: it is to be THEIR NAME,OUR NAME, and ours is one of {', '.join(USUAL)}")
        told[row[0].strip()] = row[1].strip().upper()
    return told
