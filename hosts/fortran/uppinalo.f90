! Uppinalo for Fortran, in three modules, of which most programs need the last alone:
!
! - uppinalo_refusals: the refusals by name, and their words;
! - uppinalo_c: the types, constants and calls of include/uppinalo.h, which says what they mean, argument for argument as in C;
! - uppinalo: all these, and calls that take Fortran's texts and arrays.
!
! Two slips that compile:
!
! - 0.1 is a single in Fortran, and 0.1_c_double a double. A single that is put into a double keeps its value, which is not the
!   double nearest to a tenth: in days it is 129 microseconds later. Write literals with their kind, and read a file's doubles as
!   real(c_double). Singles of a file are widened by the caller, real(x, c_double), and are read as what they are.
! - A whole number is integer(c_int64_t) and a fraction real(c_double). A plain integer has 32 bits, and int(x) cuts to them: an
!   instant, or an offset in seconds that is past 68 years, needs int(x, c_int64_t).
!
! There are no unsigned numbers here, so a month of -1 is C's 4294967295, and is refused as that. Places count from 0, as in C: the
! refused offset of a run is offsets(place + 1).

! refusals: begin, written by docs/refusals.py from README.md's table
module uppinalo_refusals
    use, intrinsic :: iso_c_binding, only: c_int32_t
    implicit none
    private
    public :: refusal_text

    integer(c_int32_t), parameter, public :: UPPINALO_REFUSED_TEXT_TOO_LONG = 1
    integer(c_int32_t), parameter, public :: UPPINALO_REFUSED_UNKNOWN_CALENDAR = 2
    integer(c_int32_t), parameter, public :: UPPINALO_REFUSED_ILL_FORMED = 3
    integer(c_int32_t), parameter, public :: UPPINALO_REFUSED_IMPOSSIBLE_FIELD = 4
    integer(c_int32_t), parameter, public :: UPPINALO_REFUSED_OUT_OF_RANGE = 5
    integer(c_int32_t), parameter, public :: UPPINALO_REFUSED_INEXACT = 6
    integer(c_int32_t), parameter, public :: UPPINALO_REFUSED_NO_ROOM = 7
    integer(c_int32_t), parameter, public :: UPPINALO_REFUSED_NOT_FINITE = 8
    integer(c_int32_t), parameter, public :: UPPINALO_REFUSED_PART_RECORD = 9
    integer(c_int32_t), parameter, public :: UPPINALO_REFUSED_NOT_A_TIME = 10
    integer(c_int32_t), parameter, public :: UPPINALO_REFUSED_NOT_OPEN = 11
    integer(c_int32_t), parameter, public :: UPPINALO_REFUSED_MISSING_DATE = 12
    integer(c_int32_t), parameter, public :: UPPINALO_REFUSED_DROPPED_DATE = 13
    integer(c_int32_t), parameter, public :: UPPINALO_REFUSED_BAD_LEAP_SECONDS = 14
    integer(c_int32_t), parameter, public :: UPPINALO_REFUSED_BEFORE_1972 = 15
    integer(c_int32_t), parameter, public :: UPPINALO_REFUSED_CUTOVER_NOT_ALLOWED = 16

contains

    !> A number in plain words, also where it is 0 or no refusal's.
    pure function refusal_text(number) result(text)
        integer(c_int32_t), intent(in) :: number
        character(len=:), allocatable :: text

        select case (number)
        case (0)
            text = "none: the call succeeded"
        case (1)
            text = "the text is longer than 128 bytes"
        case (2)
            text = "the calendar is not one of the six"
        case (3)
            text = "the text is not of the form that its grammar gives, or a code names no period or mode"
        case (4)
            text = "a field is one that no date has, such as month 13, day 32, hour 24 or zone hour 24, or second 60 &
                &where no leap second is: look for a typing error"
        case (5)
            text = "the year or the instant lies past -9999 to 9999, or a TT2000 past 64 bits"
        case (6)
            text = "no whole offset or number of the unit reads as the instant; the double is not whole in calendar &
                &mode; the number is no whole count of microseconds"
        case (7)
            text = "too little room was lent"
        case (8)
            text = "the double is a NaN or infinite"
        case (9)
            text = "the bytes are no whole number of records"
        case (10)
            text = "the record is not-a-time"
        case (11)
            text = "the fragments of the units text have ended, or the state is damaged"
        case (12)
            text = "the calendar has no such year or day, such as year 0 or 30 February: look whether it is the &
                &calendar that was meant"
        case (13)
            text = "the calendar left this day out: in `standard` a Julian date after the last day kept and before the &
                &cutover, by default 1582-10-05 to 1582-10-14"
        case (14)
            text = "the list of leap seconds is not good: 1 to 64 records of 16 bytes, the first day 730 with count 10,&
                & then later days, each count one more"
        case (15)
            text = "the time lies before 1972-01-01, where the list of leap seconds begins"
        case (16)
            text = "the cutover is not allowed in `standard`: it must be a Gregorian date from 1582-10-15 to &
                &1923-12-31, and the dates it drops must lie in one month and leave the first of it"
        case default
            text = "a refusal that this version has no words for"
        end select
    end function refusal_text

end module uppinalo_refusals
! refusals: end

module uppinalo_c
    use, intrinsic :: iso_c_binding, only: c_bool, c_char, c_double, c_int8_t, c_int32_t, c_int64_t, c_size_t
    implicit none

    character(len=*), parameter :: UPPINALO_VERSION = "0.1.0"

    integer(c_int32_t), parameter :: UPPINALO_STANDARD = 0
    integer(c_int32_t), parameter :: UPPINALO_PROLEPTIC_GREGORIAN = 1
    integer(c_int32_t), parameter :: UPPINALO_JULIAN = 2
    integer(c_int32_t), parameter :: UPPINALO_NOLEAP = 3
    integer(c_int32_t), parameter :: UPPINALO_ALL_LEAP = 4
    integer(c_int32_t), parameter :: UPPINALO_360_DAY = 5

    integer(c_int32_t), parameter :: UPPINALO_SECOND = 0
    integer(c_int32_t), parameter :: UPPINALO_MILLISECOND = 1
    integer(c_int32_t), parameter :: UPPINALO_MINUTE = 2
    integer(c_int32_t), parameter :: UPPINALO_HOUR = 3
    integer(c_int32_t), parameter :: UPPINALO_DAY = 4
    integer(c_int32_t), parameter :: UPPINALO_WEEK = 5
    integer(c_int32_t), parameter :: UPPINALO_MONTH = 6
    integer(c_int32_t), parameter :: UPPINALO_YEAR = 7

    integer(c_int32_t), parameter :: UPPINALO_FIXED = 0
    integer(c_int32_t), parameter :: UPPINALO_CALENDAR = 1

    integer, parameter :: UPPINALO_ISO_TEXT_MOST = 28

    type, bind(C) :: uppinalo_date
        integer(c_int64_t) :: year
        integer(c_int32_t) :: month = 1, day = 1
    end type uppinalo_date

    type(uppinalo_date), parameter :: UPPINALO_CUTOVER_1582 = uppinalo_date(1582, 10, 15)

    type, bind(C) :: uppinalo_axis
        integer(c_int32_t) :: calendar = UPPINALO_STANDARD, period = UPPINALO_SECOND, mode = UPPINALO_FIXED
        integer(c_int64_t) :: reference = 0
        type(uppinalo_date) :: cutover = UPPINALO_CUTOVER_1582
    end type uppinalo_axis

    type(uppinalo_axis), parameter :: UPPINALO_ZERO_AXIS = uppinalo_axis()

    type, bind(C) :: uppinalo_fields
        integer(c_int64_t) :: year
        integer(c_int32_t) :: month = 1, day = 1, hour = 0, minute = 0, second = 0, microsecond = 0
    end type uppinalo_fields

    type, bind(C) :: uppinalo_utc_fields
        integer(c_int64_t) :: year
        integer(c_int32_t) :: month = 1, day = 1, hour = 0, minute = 0, second = 0, nanosecond = 0
    end type uppinalo_utc_fields

    type, bind(C) :: uppinalo_units_state
        integer(c_int32_t) :: count, ended
        integer(c_int8_t) :: bytes(128)
    end type uppinalo_units_state

    type, bind(C) :: uppinalo_axis_answer
        integer(c_int32_t) :: number
        type(uppinalo_axis) :: axis
    end type uppinalo_axis_answer

    type, bind(C) :: uppinalo_reading
        integer(c_int32_t) :: number
        integer(c_int64_t) :: instant
        logical(c_bool) :: exact
        integer(c_int32_t) :: days_back
    end type uppinalo_reading

    type, bind(C) :: uppinalo_offset_answer
        integer(c_int32_t) :: number
        integer(c_int64_t) :: offset
    end type uppinalo_offset_answer

    type, bind(C) :: uppinalo_fields_answer
        integer(c_int32_t) :: number
        type(uppinalo_fields) :: fields
    end type uppinalo_fields_answer

    type, bind(C) :: uppinalo_date_answer
        integer(c_int32_t) :: number
        type(uppinalo_date) :: date
    end type uppinalo_date_answer

    type, bind(C) :: uppinalo_day_answer
        integer(c_int32_t) :: number
        integer(c_int64_t) :: day
    end type uppinalo_day_answer

    type, bind(C) :: uppinalo_length_answer
        integer(c_int32_t) :: number
        integer(c_size_t) :: length
    end type uppinalo_length_answer

    type, bind(C) :: uppinalo_run_answer
        integer(c_int32_t) :: number
        integer(c_size_t) :: place, length, rounded
    end type uppinalo_run_answer

    type, bind(C) :: uppinalo_utc_fields_answer
        integer(c_int32_t) :: number
        type(uppinalo_utc_fields) :: fields
    end type uppinalo_utc_fields_answer

    type, bind(C) :: uppinalo_tt2000_answer
        integer(c_int32_t) :: number
        integer(c_int64_t) :: tt2000
    end type uppinalo_tt2000_answer

    interface

        pure function uppinalo_read_units(calendar, calendar_len, cutover, text, text_len) result(answer) bind(C)
            import :: c_char, c_size_t, uppinalo_axis_answer, uppinalo_date
            character(kind=c_char), intent(in) :: calendar(*)
            integer(c_size_t), value :: calendar_len
            type(uppinalo_date), value :: cutover
            character(kind=c_char), intent(in) :: text(*)
            integer(c_size_t), value :: text_len
            type(uppinalo_axis_answer) :: answer
        end function uppinalo_read_units

        pure function uppinalo_read_iso(calendar, calendar_len, cutover, text, text_len) result(answer) bind(C)
            import :: c_char, c_size_t, uppinalo_date, uppinalo_reading
            character(kind=c_char), intent(in) :: calendar(*)
            integer(c_size_t), value :: calendar_len
            type(uppinalo_date), value :: cutover
            character(kind=c_char), intent(in) :: text(*)
            integer(c_size_t), value :: text_len
            type(uppinalo_reading) :: answer
        end function uppinalo_read_iso

        pure function uppinalo_start_units() result(answer) bind(C)
            import :: uppinalo_units_state
            type(uppinalo_units_state) :: answer
        end function uppinalo_start_units

        function uppinalo_add_units(state, fragment, fragment_len) result(answer) bind(C)
            import :: c_char, c_int32_t, c_size_t, uppinalo_units_state
            type(uppinalo_units_state), intent(inout) :: state
            character(kind=c_char), intent(in) :: fragment(*)
            integer(c_size_t), value :: fragment_len
            integer(c_int32_t) :: answer
        end function uppinalo_add_units

        function uppinalo_end_units(state, calendar, calendar_len, cutover) result(answer) bind(C)
            import :: c_char, c_size_t, uppinalo_axis_answer, uppinalo_date, uppinalo_units_state
            type(uppinalo_units_state), intent(inout) :: state
            character(kind=c_char), intent(in) :: calendar(*)
            integer(c_size_t), value :: calendar_len
            type(uppinalo_date), value :: cutover
            type(uppinalo_axis_answer) :: answer
        end function uppinalo_end_units

        function uppinalo_write_iso(calendar, cutover, instant, room, room_len) result(answer) bind(C)
            import :: c_char, c_int32_t, c_int64_t, c_size_t, uppinalo_date, uppinalo_length_answer
            integer(c_int32_t), value :: calendar
            type(uppinalo_date), value :: cutover
            integer(c_int64_t), value :: instant
            character(kind=c_char), intent(inout) :: room(*)
            integer(c_size_t), value :: room_len
            type(uppinalo_length_answer) :: answer
        end function uppinalo_write_iso

        pure function uppinalo_fields_of(calendar, cutover, instant) result(answer) bind(C)
            import :: c_int32_t, c_int64_t, uppinalo_date, uppinalo_fields_answer
            integer(c_int32_t), value :: calendar
            type(uppinalo_date), value :: cutover
            integer(c_int64_t), value :: instant
            type(uppinalo_fields_answer) :: answer
        end function uppinalo_fields_of

        pure function uppinalo_date_of_day(calendar, cutover, day) result(answer) bind(C)
            import :: c_int32_t, c_int64_t, uppinalo_date, uppinalo_date_answer
            integer(c_int32_t), value :: calendar
            type(uppinalo_date), value :: cutover
            integer(c_int64_t), value :: day
            type(uppinalo_date_answer) :: answer
        end function uppinalo_date_of_day

        pure function uppinalo_day_of_date(calendar, cutover, date) result(answer) bind(C)
            import :: c_int32_t, uppinalo_date, uppinalo_day_answer
            integer(c_int32_t), value :: calendar
            type(uppinalo_date), value :: cutover
            type(uppinalo_date), value :: date
            type(uppinalo_day_answer) :: answer
        end function uppinalo_day_of_date

        pure function uppinalo_read_whole(axis, offset) result(answer) bind(C)
            import :: c_int64_t, uppinalo_axis, uppinalo_reading
            type(uppinalo_axis), value :: axis
            integer(c_int64_t), value :: offset
            type(uppinalo_reading) :: answer
        end function uppinalo_read_whole

        pure function uppinalo_read_double(axis, offset) result(answer) bind(C)
            import :: c_double, uppinalo_axis, uppinalo_reading
            type(uppinalo_axis), value :: axis
            real(c_double), value :: offset
            type(uppinalo_reading) :: answer
        end function uppinalo_read_double

        pure function uppinalo_write_instant(axis, instant) result(answer) bind(C)
            import :: c_int64_t, uppinalo_axis, uppinalo_offset_answer
            type(uppinalo_axis), value :: axis
            integer(c_int64_t), value :: instant
            type(uppinalo_offset_answer) :: answer
        end function uppinalo_write_instant

        pure function uppinalo_write_fields(axis, fields) result(answer) bind(C)
            import :: uppinalo_axis, uppinalo_fields, uppinalo_offset_answer
            type(uppinalo_axis), value :: axis
            type(uppinalo_fields), value :: fields
            type(uppinalo_offset_answer) :: answer
        end function uppinalo_write_fields

        function uppinalo_read_wholes(axis, source, n, destination, room) result(answer) bind(C)
            import :: c_int64_t, c_size_t, uppinalo_axis, uppinalo_run_answer
            type(uppinalo_axis), value :: axis
            integer(c_int64_t), intent(in) :: source(*)
            integer(c_size_t), value :: n
            integer(c_int64_t), intent(inout) :: destination(*)
            integer(c_size_t), value :: room
            type(uppinalo_run_answer) :: answer
        end function uppinalo_read_wholes

        function uppinalo_read_doubles(axis, source, n, destination, room) result(answer) bind(C)
            import :: c_double, c_int64_t, c_size_t, uppinalo_axis, uppinalo_run_answer
            type(uppinalo_axis), value :: axis
            real(c_double), intent(in) :: source(*)
            integer(c_size_t), value :: n
            integer(c_int64_t), intent(inout) :: destination(*)
            integer(c_size_t), value :: room
            type(uppinalo_run_answer) :: answer
        end function uppinalo_read_doubles

        function uppinalo_read_datetime64(identifier, identifier_len, records, records_len, destination, room) &
            result(answer) bind(C)
            import :: c_char, c_int64_t, c_size_t, uppinalo_run_answer
            character(kind=c_char), intent(in) :: identifier(*)
            integer(c_size_t), value :: identifier_len
            type(*), intent(in) :: records(*)
            integer(c_size_t), value :: records_len
            integer(c_int64_t), intent(inout) :: destination(*)
            integer(c_size_t), value :: room
            type(uppinalo_run_answer) :: answer
        end function uppinalo_read_datetime64

        function uppinalo_write_datetime64(identifier, identifier_len, instants, n, records, records_room) &
            result(answer) bind(C)
            import :: c_char, c_int64_t, c_size_t, uppinalo_run_answer
            character(kind=c_char), intent(in) :: identifier(*)
            integer(c_size_t), value :: identifier_len
            integer(c_int64_t), intent(in) :: instants(*)
            integer(c_size_t), value :: n
            type(*), intent(inout) :: records(*)
            integer(c_size_t), value :: records_room
            type(uppinalo_run_answer) :: answer
        end function uppinalo_write_datetime64

        pure function uppinalo_read_tt2000(leap_seconds, leap_seconds_len, tt2000) result(answer) bind(C)
            import :: c_int64_t, c_size_t, uppinalo_utc_fields_answer
            type(*), intent(in) :: leap_seconds(*)
            integer(c_size_t), value :: leap_seconds_len
            integer(c_int64_t), value :: tt2000
            type(uppinalo_utc_fields_answer) :: answer
        end function uppinalo_read_tt2000

        pure function uppinalo_write_tt2000(leap_seconds, leap_seconds_len, fields) result(answer) bind(C)
            import :: c_size_t, uppinalo_tt2000_answer, uppinalo_utc_fields
            type(*), intent(in) :: leap_seconds(*)
            integer(c_size_t), value :: leap_seconds_len
            type(uppinalo_utc_fields), value :: fields
            type(uppinalo_tt2000_answer) :: answer
        end function uppinalo_write_tt2000

    end interface

end module uppinalo_c

! A calendar of a text is a name, else a code. Where no cutover is given it is that of 1582.
module uppinalo
    use uppinalo_refusals
    use uppinalo_c, &
        start_units => uppinalo_start_units, &
        read_whole => uppinalo_read_whole, &
        read_double => uppinalo_read_double, &
        write_instant => uppinalo_write_instant, &
        write_fields => uppinalo_write_fields
    implicit none
    private :: name_of, or_1582
    private :: read_datetime64_bytes, read_datetime64_numbers, write_datetime64_bytes, write_datetime64_numbers

    !> Records of a datetime64 array, as bytes or as numbers of eight bytes. The identifier names their byte order in memory.
    interface read_datetime64
        module procedure read_datetime64_bytes, read_datetime64_numbers
    end interface read_datetime64

    interface write_datetime64
        module procedure write_datetime64_bytes, write_datetime64_numbers
    end interface write_datetime64

contains

    !> The axis of a units text in the calendar of a name, `standard` where none is given. Blanks at the end of either are left out,
    !> since Fortran fills a variable with them.
    pure function read_units(text, calendar, cutover) result(answer)
        character(len=*), intent(in) :: text
        character(len=*), intent(in), optional :: calendar
        type(uppinalo_date), intent(in), optional :: cutover
        type(uppinalo_axis_answer) :: answer
        character(len=:), allocatable :: name

        name = name_of(calendar)
        answer = uppinalo_read_units(name, len(name, c_size_t), or_1582(cutover), text, len_trim(text, c_size_t))
    end function read_units

    !> The instant of an ISO text, with the same calendars and blanks.
    pure function read_iso(text, calendar, cutover) result(answer)
        character(len=*), intent(in) :: text
        character(len=*), intent(in), optional :: calendar
        type(uppinalo_date), intent(in), optional :: cutover
        type(uppinalo_reading) :: answer
        character(len=:), allocatable :: name

        name = name_of(calendar)
        answer = uppinalo_read_iso(name, len(name, c_size_t), or_1582(cutover), text, len_trim(text, c_size_t))
    end function read_iso

    !> One more fragment of a units text, with the blanks at its end; the answer is a refusal's number or 0.
    function add_units(state, fragment) result(number)
        type(uppinalo_units_state), intent(inout) :: state
        character(len=*), intent(in) :: fragment
        integer(c_int32_t) :: number

        number = uppinalo_add_units(state, fragment, len(fragment, c_size_t))
    end function add_units

    function end_units(state, calendar, cutover) result(answer)
        type(uppinalo_units_state), intent(inout) :: state
        character(len=*), intent(in), optional :: calendar
        type(uppinalo_date), intent(in), optional :: cutover
        type(uppinalo_axis_answer) :: answer
        character(len=:), allocatable :: name

        name = name_of(calendar)
        answer = uppinalo_end_units(state, name, len(name, c_size_t), or_1582(cutover))
    end function end_units

    !> The ISO text of an instant; where it is refused an empty text, and `number` says why.
    function write_iso(instant, calendar, cutover, number) result(text)
        integer(c_int64_t), intent(in) :: instant
        integer(c_int32_t), intent(in) :: calendar
        type(uppinalo_date), intent(in), optional :: cutover
        integer(c_int32_t), intent(out), optional :: number
        character(len=:), allocatable :: text
        character(len=UPPINALO_ISO_TEXT_MOST) :: room
        type(uppinalo_length_answer) :: answer

        answer = uppinalo_write_iso(calendar, or_1582(cutover), instant, room, len(room, c_size_t))
        text = room(:answer%length)
        if (present(number)) number = answer%number
    end function write_iso

    pure function fields_of(instant, calendar, cutover) result(answer)
        integer(c_int64_t), intent(in) :: instant
        integer(c_int32_t), intent(in) :: calendar
        type(uppinalo_date), intent(in), optional :: cutover
        type(uppinalo_fields_answer) :: answer

        answer = uppinalo_fields_of(calendar, or_1582(cutover), instant)
    end function fields_of

    pure function date_of_day(day, calendar, cutover) result(answer)
        integer(c_int64_t), intent(in) :: day
        integer(c_int32_t), intent(in) :: calendar
        type(uppinalo_date), intent(in), optional :: cutover
        type(uppinalo_date_answer) :: answer

        answer = uppinalo_date_of_day(calendar, or_1582(cutover), day)
    end function date_of_day

    pure function day_of_date(date, calendar, cutover) result(answer)
        type(uppinalo_date), intent(in) :: date
        integer(c_int32_t), intent(in) :: calendar
        type(uppinalo_date), intent(in), optional :: cutover
        type(uppinalo_day_answer) :: answer

        answer = uppinalo_day_of_date(calendar, or_1582(cutover), date)
    end function day_of_date

    !> A run of offsets, read whole or not at all; there may be more instants than offsets, of which the rest stay.
    function read_wholes(axis, offsets, instants) result(answer)
        type(uppinalo_axis), intent(in) :: axis
        integer(c_int64_t), intent(in), contiguous :: offsets(:)
        integer(c_int64_t), intent(inout), contiguous :: instants(:)
        type(uppinalo_run_answer) :: answer

        answer = uppinalo_read_wholes(axis, offsets, size(offsets, kind=c_size_t), instants, size(instants, kind=c_size_t))
    end function read_wholes

    !> The same for doubles.
    function read_doubles(axis, offsets, instants) result(answer)
        type(uppinalo_axis), intent(in) :: axis
        real(c_double), intent(in), contiguous :: offsets(:)
        integer(c_int64_t), intent(inout), contiguous :: instants(:)
        type(uppinalo_run_answer) :: answer

        answer = uppinalo_read_doubles(axis, offsets, size(offsets, kind=c_size_t), instants, size(instants, kind=c_size_t))
    end function read_doubles

    function read_datetime64_bytes(identifier, records, instants) result(answer)
        character(len=*), intent(in) :: identifier
        integer(c_int8_t), intent(in), contiguous :: records(:)
        integer(c_int64_t), intent(inout), contiguous :: instants(:)
        type(uppinalo_run_answer) :: answer

        answer = uppinalo_read_datetime64(identifier, len_trim(identifier, c_size_t), records, size(records, kind=c_size_t), &
            instants, size(instants, kind=c_size_t))
    end function read_datetime64_bytes

    function read_datetime64_numbers(identifier, records, instants) result(answer)
        character(len=*), intent(in) :: identifier
        integer(c_int64_t), intent(in), contiguous :: records(:)
        integer(c_int64_t), intent(inout), contiguous :: instants(:)
        type(uppinalo_run_answer) :: answer

        answer = uppinalo_read_datetime64(identifier, len_trim(identifier, c_size_t), records, 8 * size(records, kind=c_size_t), &
            instants, size(instants, kind=c_size_t))
    end function read_datetime64_numbers

    function write_datetime64_bytes(identifier, instants, records) result(answer)
        character(len=*), intent(in) :: identifier
        integer(c_int64_t), intent(in), contiguous :: instants(:)
        integer(c_int8_t), intent(inout), contiguous :: records(:)
        type(uppinalo_run_answer) :: answer

        answer = uppinalo_write_datetime64(identifier, len_trim(identifier, c_size_t), instants, size(instants, kind=c_size_t), &
            records, size(records, kind=c_size_t))
    end function write_datetime64_bytes

    function write_datetime64_numbers(identifier, instants, records) result(answer)
        character(len=*), intent(in) :: identifier
        integer(c_int64_t), intent(in), contiguous :: instants(:)
        integer(c_int64_t), intent(inout), contiguous :: records(:)
        type(uppinalo_run_answer) :: answer

        answer = uppinalo_write_datetime64(identifier, len_trim(identifier, c_size_t), instants, size(instants, kind=c_size_t), &
            records, 8 * size(records, kind=c_size_t))
    end function write_datetime64_numbers

    !> The list of leap seconds in a file; where it cannot be read an empty list, which the calls refuse with 14.
    subroutine read_leap_seconds(file, leap_seconds)
        character(len=*), intent(in) :: file
        integer(c_int8_t), allocatable, intent(out) :: leap_seconds(:)
        integer(c_int64_t) :: length
        integer :: unit, status

        length = 0
        open (newunit=unit, file=file, access="stream", form="unformatted", status="old", action="read", iostat=status)
        if (status == 0) inquire (unit=unit, size=length)
        allocate (leap_seconds(max(length, 0_c_int64_t)))
        if (status /= 0) return
        read (unit, iostat=status) leap_seconds
        close (unit)
        if (status /= 0) leap_seconds = leap_seconds(1:0)
    end subroutine read_leap_seconds

    pure function read_tt2000(leap_seconds, tt2000) result(answer)
        integer(c_int8_t), intent(in), contiguous :: leap_seconds(:)
        integer(c_int64_t), intent(in) :: tt2000
        type(uppinalo_utc_fields_answer) :: answer

        answer = uppinalo_read_tt2000(leap_seconds, size(leap_seconds, kind=c_size_t), tt2000)
    end function read_tt2000

    pure function write_tt2000(leap_seconds, fields) result(answer)
        integer(c_int8_t), intent(in), contiguous :: leap_seconds(:)
        type(uppinalo_utc_fields), intent(in) :: fields
        type(uppinalo_tt2000_answer) :: answer

        answer = uppinalo_write_tt2000(leap_seconds, size(leap_seconds, kind=c_size_t), fields)
    end function write_tt2000

    pure function name_of(calendar) result(name)
        character(len=*), intent(in), optional :: calendar
        character(len=:), allocatable :: name

        name = ""
        if (present(calendar)) name = trim(calendar)
    end function name_of

    pure function or_1582(cutover) result(given)
        type(uppinalo_date), intent(in), optional :: cutover
        type(uppinalo_date) :: given

        given = UPPINALO_CUTOVER_1582
        if (present(cutover)) given = cutover
    end function or_1582

end module uppinalo
