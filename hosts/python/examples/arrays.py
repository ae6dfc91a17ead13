import numpy
from uppinalo import Axis, Refused

axis = Axis("days since 1850-01-01", calendar="noleap")
times = numpy.array([[59.5, numpy.nan], [0.1, -999.0]])  # as a file holds them, with gaps and its _FillValue
run = axis.read_run(times, missing=-999.0)
print(run.isoformat())
print(f"rounded: {run.rounded}, missing: {run.mask.sum()}, years: {run.fields()['year'][:, 0]}")
print("in hours:", Axis("hours since 1850-01-01", calendar="noleap").write_run(run.instants[0, :1]))
try:
    axis.read_run(times)  # without `missing`
except Refused as refused:
    print(f"refused {refused.number} at place {refused.place}")
print(Axis("days since 1850-01-01", calendar="proleptic_gregorian").read_run([59, 60]).datetime64())
