from uppinalo import Axis, Fields, Refused, write_iso

axis = Axis("days since 1850-01-01", calendar="noleap")
offsets = [59.5, 0.1]
run = axis.read_run(offsets)
for offset, instant in zip(offsets, run.instants):
    print(f"{offset}: {write_iso(instant, axis.calendar)}")
print(f"rounded: {run.rounded}")
print(f"1850-03-01: {axis.write(Fields(1850, 3, 1))}")
try:
    axis.write(Fields(1850, 3, 1, hour=12))
except Refused as refused:
    print(f"1850-03-01, noon: refused {refused.number}")
reading = Axis("calendar months since 1930-01-31").read(1)
print(f"1930-01-31 and a month: {reading.isoformat()}, {reading.days_back} days back")
