from uppinalo import Refused, UnitsReader

link = [b"days si", b"", b"nce 1850-0", b"1-01"]  # as a slow link hands over the units of a header
with UnitsReader(calendar="noleap") as reader:
    for fragment in link:
        reader.add(fragment)
print("offset 0:  ", reader.axis.read(0).isoformat())
reader = UnitsReader()
reader.add(b"days si")  # and here the link breaks
for end in ("first end: ", "second end:"):
    try:
        reader.end("noleap")
    except Refused as refused:
        print(end, "refused", refused.number)
