program example
    use uppinalo
    implicit none
    type(uppinalo_axis_answer) :: units
    type(uppinalo_run_answer) :: run
    type(uppinalo_reading) :: reading
    type(uppinalo_offset_answer) :: written
    real(c_double) :: offsets(2) = [59.5_c_double, 0.1_c_double]  ! 0.1 alone would be a single, and another time
    integer(c_int64_t) :: instants(2)
    character(len=8) :: shown
    integer :: i

    units = read_units("days since 1850-01-01", "noleap")
    run = read_doubles(units%axis, offsets, instants)
    if (units%number /= 0 .or. run%number /= 0) stop 1
    do i = 1, size(instants)
        write (shown, "(f8.1)") offsets(i)
        print "(3a)", trim(adjustl(shown)), ": ", write_iso(instants(i), units%axis%calendar)
    end do
    print "(a, i0)", "rounded: ", run%rounded
    written = write_fields(units%axis, uppinalo_fields(1850, 3, 1))
    print "(a, i0)", "1850-03-01: ", written%offset
    written = write_fields(units%axis, uppinalo_fields(1850, 3, 1, hour=12))
    print "(a, i0)", "1850-03-01, noon: refused ", written%number
    units = read_units("calendar months since 1930-01-31")
    reading = read_whole(units%axis, 1_c_int64_t)
    if (units%number /= 0 .or. reading%number /= 0) stop 1
    print "(3a, i0, a)", "1930-01-31 and a month: ", write_iso(reading%instant, units%axis%calendar), ", ", &
        reading%days_back, " days back"
end program example
