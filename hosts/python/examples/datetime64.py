from uppinalo import Refused, read_datetime64, write_datetime64, write_iso

dtype = "<M8[ns]"  # as the array's metadata name it
chunk = bytes.fromhex("00006bc32d0bae17 00a023f4730eae17")  # as it is stored: eight bytes for each time
run = read_datetime64(chunk, dtype)
for instant in run.instants:
    print(write_iso(instant, run.calendar))
print("written back:", write_datetime64(run, dtype, out=bytearray(16)).hex())
print("in hours:    ", write_datetime64(run, ">M8[h]", out=bytearray(16)).hex())
for record in ("0000000000000080", "0100000000000000"):  # NumPy's not-a-time, and one nanosecond
    try:
        read_datetime64(chunk + bytes.fromhex(record), dtype)
    except Refused as refused:
        print(f"with {record}: refused {refused.number} at place {refused.place}")
