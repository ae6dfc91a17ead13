! Prints the types of the module uppinalo_c with their sizes, as hosts/layout.c has those of the structs.
program layout
    use, intrinsic :: iso_c_binding, only: c_sizeof
    use uppinalo_c
    implicit none
    type(uppinalo_date) :: date
    type(uppinalo_axis) :: axis
    type(uppinalo_fields) :: fields
    type(uppinalo_utc_fields) :: utc_fields
    type(uppinalo_units_state) :: units_state
    type(uppinalo_axis_answer) :: axis_answer
    type(uppinalo_reading) :: reading
    type(uppinalo_offset_answer) :: offset_answer
    type(uppinalo_fields_answer) :: fields_answer
    type(uppinalo_date_answer) :: date_answer
    type(uppinalo_day_answer) :: day_answer
    type(uppinalo_length_answer) :: length_answer
    type(uppinalo_run_answer) :: run_answer
    type(uppinalo_utc_fields_answer) :: utc_fields_answer
    type(uppinalo_tt2000_answer) :: tt2000_answer

    call say("date", c_sizeof(date))
    call say("axis", c_sizeof(axis))
    call say("fields", c_sizeof(fields))
    call say("utc_fields", c_sizeof(utc_fields))
    call say("units_state", c_sizeof(units_state))
    call say("axis_answer", c_sizeof(axis_answer))
    call say("reading", c_sizeof(reading))
    call say("offset_answer", c_sizeof(offset_answer))
    call say("fields_answer", c_sizeof(fields_answer))
    call say("date_answer", c_sizeof(date_answer))
    call say("day_answer", c_sizeof(day_answer))
    call say("length_answer", c_sizeof(length_answer))
    call say("run_answer", c_sizeof(run_answer))
    call say("utc_fields_answer", c_sizeof(utc_fields_answer))
    call say("tt2000_answer", c_sizeof(tt2000_answer))

contains

    subroutine say(name, bytes)
        character(len=*), intent(in) :: name
        integer(c_size_t), intent(in) :: bytes

        print "(2a, 1x, i0)", "uppinalo_", name, bytes
    end subroutine say

end program layout
