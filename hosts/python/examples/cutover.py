from uppinalo import Axis, Date, Fields, Refused

english = Date(1752, 9, 14)  # the first Gregorian date; a datetime.date or a tuple will do too
diary = Axis("days since 1752-09-01", cutover=english)
for offset in range(4):
    print(f"{offset}: {diary.read(offset).isoformat()}")
print(f"1752-09-14: {diary.write(Fields(1752, 9, 14))}")
reading = Axis("calendar months since 1752-08-10", cutover=english).read(1)
print(f"1752-08-10 and a month: {reading.isoformat()}, {reading.days_back} days back")
try:
    diary.write(Fields(1752, 9, 3))
except Refused as refused:
    print(f"1752-09-03: refused {refused.number}")
try:
    Axis("days since 1918-01-31", cutover=Date(1918, 2, 14))
except Refused as refused:
    print(f"the Russian cutover of 1918: refused {refused.number}")
