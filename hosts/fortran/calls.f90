! Every call of the module uppinalo on cases by hand. Ends with status 1 at the first answer that is another.
program calls
    use uppinalo
    implicit none
    integer(c_int64_t), parameter :: NOON = 43200000000_c_int64_t
    type(uppinalo_date), parameter :: ENGLISH = uppinalo_date(1752, 9, 14)

    call texts()
    call fragments()
    call days()
    call offsets()
    call runs()
    call datetime64()
    call tt2000()
    call refusals()

contains

    subroutine expect(what, is_so)
        character(len=*), intent(in) :: what
        logical, intent(in) :: is_so

        if (is_so) return
        print "(2a)", "not as expected: ", what
        stop 1
    end subroutine expect

    pure logical function is_date(date, year, month, day)
        type(uppinalo_date), intent(in) :: date
        integer, intent(in) :: year, month, day

        is_date = date%year == year .and. date%month == month .and. date%day == day
    end function is_date

    pure logical function is_zero(axis)
        type(uppinalo_axis), intent(in) :: axis

        is_zero = axis%calendar == 0 .and. axis%period == 0 .and. axis%mode == 0 .and. axis%reference == 0 .and. &
            is_date(axis%cutover, 1582, 10, 15)
    end function is_zero

    subroutine texts()
        type(uppinalo_axis_answer) :: units
        type(uppinalo_reading) :: reading
        character(len=64) :: filled
        character(len=:), allocatable :: text
        integer(c_int32_t) :: number

        filled = "days since 1850-01-01 12:00"
        units = read_units(filled, "360_day ")
        call expect("read_units", &
            units%number == 0 .and. units%axis%calendar == UPPINALO_360_DAY .and. &
            units%axis%period == UPPINALO_DAY .and. units%axis%mode == UPPINALO_FIXED .and. &
            units%axis%reference == -43200 * 86400000000_c_int64_t + NOON .and. &
            is_date(units%axis%cutover, 1582, 10, 15))
        units = read_units("calendar months since 1970-01-01", cutover=ENGLISH)
        call expect("read_units with a cutover", &
            units%number == 0 .and. units%axis%calendar == UPPINALO_STANDARD .and. &
            units%axis%period == UPPINALO_MONTH .and. units%axis%mode == UPPINALO_CALENDAR .and. &
            is_date(units%axis%cutover, 1752, 9, 14))
        units = read_units("days since 1850-01-01", "lunar")
        call expect("read_units refused", units%number == UPPINALO_REFUSED_UNKNOWN_CALENDAR .and. is_zero(units%axis))
        units = read_units(repeat("x", 129), "noleap")
        call expect("read_units of a long text", units%number == UPPINALO_REFUSED_TEXT_TOO_LONG)
        units = read_units("", "noleap")
        call expect("read_units of no text", units%number == UPPINALO_REFUSED_ILL_FORMED)
        reading = read_iso("1970-01-02T12:00  ", "noleap")
        call expect("read_iso", &
            reading%number == 0 .and. reading%instant == 3 * NOON .and. reading%exact .and. reading%days_back == 0)
        reading = read_iso("1752-09-03", cutover=ENGLISH)
        call expect("read_iso refused", &
            reading%number == UPPINALO_REFUSED_DROPPED_DATE .and. reading%instant == 0 .and. .not. reading%exact)
        text = write_iso(NOON, UPPINALO_JULIAN, number=number)
        call expect("write_iso", number == 0 .and. text == "1970-01-01T12:00:00.000000Z" .and. len(text) == 27)
        reading = read_iso("-9999-01-01")
        text = write_iso(reading%instant, UPPINALO_STANDARD, ENGLISH, number)
        call expect("write_iso, 28 bytes", &
            number == 0 .and. text == "-9999-01-01T00:00:00.000000Z" .and. len(text) == UPPINALO_ISO_TEXT_MOST)
        text = write_iso(huge(NOON), UPPINALO_NOLEAP, number=number)
        call expect("write_iso refused", number == UPPINALO_REFUSED_OUT_OF_RANGE .and. len(text) == 0)
    end subroutine texts

    subroutine fragments()
        type(uppinalo_units_state) :: state
        type(uppinalo_axis_answer) :: units

        state = start_units()
        call expect("start_units", state%count == 0 .and. state%ended == 0 .and. all(state%bytes == 0))
        call expect("add_units", add_units(state, "days ") == 0)
        call expect("add_units of nothing", add_units(state, "") == 0)
        call expect("add_units once more", add_units(state, "since 1970-01-02") == 0 .and. state%count == 21)
        units = end_units(state, "noleap")
        call expect("end_units", &
            units%number == 0 .and. units%axis%calendar == UPPINALO_NOLEAP .and. units%axis%reference == 2 * NOON)
        units = end_units(state)
        call expect("end_units twice", &
            units%number == UPPINALO_REFUSED_NOT_OPEN .and. is_zero(units%axis) .and. state%ended == 1)
        call expect("add_units after the end", add_units(state, "x") == UPPINALO_REFUSED_NOT_OPEN)
    end subroutine fragments

    subroutine days()
        type(uppinalo_day_answer) :: day
        type(uppinalo_date_answer) :: date
        type(uppinalo_fields_answer) :: fields

        day = day_of_date(uppinalo_date(1582, 10, 4), UPPINALO_STANDARD)
        date = date_of_day(day%day + 1, UPPINALO_STANDARD)
        call expect("day_of_date and date_of_day", &
            day%number == 0 .and. date%number == 0 .and. is_date(date%date, 1582, 10, 15))
        day = day_of_date(uppinalo_date(1752, 9, 2), UPPINALO_STANDARD, ENGLISH)
        date = date_of_day(day%day + 1, UPPINALO_STANDARD, ENGLISH)
        call expect("the same with a cutover", is_date(date%date, 1752, 9, 14))
        day = day_of_date(uppinalo_date(1900, -1, 1), UPPINALO_NOLEAP)
        call expect("day_of_date refused", day%number == UPPINALO_REFUSED_IMPOSSIBLE_FIELD .and. day%day == 0)
        day = day_of_date(uppinalo_date(1752, 9, 2), UPPINALO_STANDARD, uppinalo_date(1918, 2, 14))
        call expect("day_of_date with the Russian cutover", day%number == UPPINALO_REFUSED_CUTOVER_NOT_ALLOWED)
        fields = fields_of(-1_c_int64_t, UPPINALO_NOLEAP)
        call expect("fields_of", &
            fields%number == 0 .and. fields%fields%year == 1969 .and. fields%fields%month == 12 .and. &
            fields%fields%day == 31 .and. fields%fields%hour == 23 .and. fields%fields%minute == 59 .and. &
            fields%fields%second == 59 .and. fields%fields%microsecond == 999999)
        fields = fields_of(0_c_int64_t, 6)
        call expect("fields_of refused", &
            fields%number == UPPINALO_REFUSED_UNKNOWN_CALENDAR .and. fields%fields%month == 0)
    end subroutine days

    subroutine offsets()
        type(uppinalo_axis) :: axis
        type(uppinalo_reading) :: reading
        type(uppinalo_offset_answer) :: written

        call expect("an axis that is declared alone", is_zero(axis) .and. is_zero(UPPINALO_ZERO_AXIS))
        reading = read_double(axis, 2.0_c_double**(-7))
        call expect("read_double", &
            reading%number == 0 .and. reading%instant == 7812 .and. .not. reading%exact .and. reading%days_back == 0)
        axis = uppinalo_axis(UPPINALO_NOLEAP, UPPINALO_DAY)
        reading = read_double(axis, real(0.1, c_double))
        call expect("read_double of a single that was widened", reading%instant == 8640000129_c_int64_t)
        reading = read_whole(axis, -1_c_int64_t)
        call expect("read_whole", reading%number == 0 .and. reading%instant == -2 * NOON .and. reading%exact)
        written = write_instant(axis, 4 * NOON)
        call expect("write_instant", written%number == 0 .and. written%offset == 2)
        written = write_instant(axis, NOON)
        call expect("write_instant refused", written%number == UPPINALO_REFUSED_INEXACT .and. written%offset == 0)
        written = write_fields(axis, uppinalo_fields(1971))
        call expect("write_fields", written%number == 0 .and. written%offset == 365)
        written = write_fields(axis, uppinalo_fields(1970, 1, 1, 0, 0, 0, 1))
        call expect("write_fields of a microsecond", written%number == UPPINALO_REFUSED_INEXACT)
        axis%cutover = uppinalo_date(0, 0, 0)
        axis%calendar = UPPINALO_STANDARD
        reading = read_whole(axis, 0_c_int64_t)
        call expect("read_whole with a cutover of zeros", reading%number == UPPINALO_REFUSED_CUTOVER_NOT_ALLOWED)
    end subroutine offsets

    subroutine runs()
        type(uppinalo_axis) :: axis
        type(uppinalo_run_answer) :: run
        real(c_double) :: doubles(6) = [0.0_c_double, 9.0_c_double, 0.1_c_double, 9.0_c_double, 0.5_c_double, 9.0_c_double]
        integer(c_int64_t) :: instants(4) = 7

        axis = uppinalo_axis(UPPINALO_NOLEAP, UPPINALO_DAY)
        run = read_doubles(axis, doubles(1::2), instants)
        call expect("read_doubles of every second one", &
            run%number == 0 .and. run%length == 3 .and. run%place == 0 .and. run%rounded == 1 .and. &
            all(instants == [0_c_int64_t, 8640000000_c_int64_t, NOON, 7_c_int64_t]))
        doubles(2) = doubles(1) / (doubles(1) - doubles(1))
        run = read_doubles(axis, doubles(1:4), instants)
        call expect("read_doubles refused", &
            run%number == UPPINALO_REFUSED_NOT_FINITE .and. run%place == 1 .and. run%length == 0 .and. &
            run%rounded == 0 .and. instants(2) == 8640000000_c_int64_t)
        run = read_wholes(axis, [1_c_int64_t, -1_c_int64_t], instants)
        call expect("read_wholes", &
            run%number == 0 .and. run%length == 2 .and. all(instants(:3) == [2 * NOON, -2 * NOON, NOON]))
        run = read_wholes(axis, [1_c_int64_t, 2_c_int64_t], instants(1:1))
        call expect("read_wholes without room", run%number == UPPINALO_REFUSED_NO_ROOM)
        run = read_wholes(axis, [integer(c_int64_t) ::], instants(1:0))
        call expect("read_wholes of none", run%number == 0 .and. run%length == 0)
    end subroutine runs

    subroutine datetime64()
        type(uppinalo_run_answer) :: run
        integer(c_int64_t) :: instants(2) = 7, records(2) = [12_c_int64_t, -12_c_int64_t]
        integer(c_int8_t) :: bytes(17) = 7

        run = read_datetime64("<M8[h]", records, instants)
        call expect("read_datetime64 of numbers", &
            run%number == 0 .and. run%length == 2 .and. all(instants == [NOON, -NOON]))
        run = write_datetime64(">M8[h]", instants(1:1), bytes)
        call expect("write_datetime64 to bytes", &
            run%number == 0 .and. run%length == 1 .and. bytes(1) == 0 .and. bytes(8) == 12 .and. bytes(9) == 7)
        run = read_datetime64(">M8[h]  ", bytes(1:8), instants(2:2))
        call expect("read_datetime64 of bytes", run%number == 0 .and. instants(2) == NOON)
        run = read_datetime64(">M8[h]", bytes, instants)
        call expect("read_datetime64 of a part of a record", run%number == UPPINALO_REFUSED_PART_RECORD)
        run = write_datetime64("<M8[s]", instants, records)
        call expect("write_datetime64 to numbers", run%number == 0 .and. all(records == 43200))
        records(2) = -huge(NOON) - 1
        run = read_datetime64("<M8[s]", records, instants)
        call expect("read_datetime64 of not-a-time", run%number == UPPINALO_REFUSED_NOT_A_TIME .and. run%place == 1)
    end subroutine datetime64

    subroutine tt2000()
        integer(c_int64_t), parameter :: LEAP = 536500868184000000_c_int64_t
        type(uppinalo_utc_fields_answer) :: utc
        type(uppinalo_tt2000_answer) :: written
        integer(c_int8_t), allocatable :: leap_seconds(:)

        call read_leap_seconds("data/leap_seconds_2017.bin", leap_seconds)
        call expect("read_leap_seconds", size(leap_seconds) == 28 * 16)
        utc = read_tt2000(leap_seconds, LEAP + 1)
        call expect("read_tt2000", &
            utc%number == 0 .and. utc%fields%year == 2016 .and. utc%fields%month == 12 .and. &
            utc%fields%day == 31 .and. utc%fields%hour == 23 .and. utc%fields%minute == 59 .and. &
            utc%fields%second == 60 .and. utc%fields%nanosecond == 1)
        written = write_tt2000(leap_seconds, utc%fields)
        call expect("write_tt2000", written%number == 0 .and. written%tt2000 == LEAP + 1)
        written = write_tt2000(leap_seconds, uppinalo_utc_fields(1971))
        call expect("write_tt2000 refused", written%number == UPPINALO_REFUSED_BEFORE_1972 .and. written%tt2000 == 0)
        call read_leap_seconds("data/no such file", leap_seconds)
        utc = read_tt2000(leap_seconds, LEAP)
        call expect("read_leap_seconds of no file", &
            size(leap_seconds) == 0 .and. utc%number == UPPINALO_REFUSED_BAD_LEAP_SECONDS)
    end subroutine tt2000

    subroutine refusals()
        call expect("refusal_text of 0", refusal_text(0) == "none: the call succeeded")
        call expect("refusal_text", refusal_text(UPPINALO_REFUSED_NO_ROOM) == "too little room was lent")
        call expect("refusal_text of two lines", &
            index(refusal_text(UPPINALO_REFUSED_BAD_LEAP_SECONDS), "count 10, then later days") > 0)
        call expect("refusal_text of no refusal", &
            refusal_text(-1) == refusal_text(huge(0_c_int32_t)) .and. len(refusal_text(-1)) > 0)
    end subroutine refusals

end program calls
