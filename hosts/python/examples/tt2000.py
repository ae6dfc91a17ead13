from uppinalo import LeapSeconds, Refused, UtcFields

leap_seconds = LeapSeconds.from_file("data/leap_seconds_2017.bin")
for tt2000 in (536500867184000000, 536500868184000000, 536500869184000000):  # as a CDF file holds them
    fields = leap_seconds.read(tt2000)
    print(fields.isoformat(), "written back:", leap_seconds.write(fields))
for fields in (UtcFields(2017, 12, 31, 23, 59, 60), UtcFields(1971, 12, 31)):
    try:
        leap_seconds.write(fields)
    except Refused as refused:
        print(f"{fields.isoformat()}: refused {refused.number}")
