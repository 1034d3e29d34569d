! The host reads an element of an array of Fortran whose update is missing, and prints a whole one.
program main
    implicit none
    real(8) :: u(10), w(10)
    integer :: i

    u = 0
    w = 0
    !$acc data copyin(u, w)
    !$acc parallel loop present(u, w)
    do i = 2, 9
        u(i) = i
        w(i) = i
    end do
    !$acc update self(w)
    print '(f4.1)', u(1)
    print '(f4.1)', w(5)
    print '(f4.1)', u(5)
    !$acc end data
end program
