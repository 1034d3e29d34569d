! Sections of Fortran are named by its bounds.
module grid
    real(8) :: u(10), v(0:9), w(4, 5)
end module

program main
    use grid
    implicit none

    u = 1
    v = 2
    w = 3
    !$acc enter data copyin(u(3:5))
    !$acc exit data delete(u(3:5))
    !$acc enter data copyin(v(2:4))
    !$acc exit data delete(v(2:4))
    !$acc enter data copyin(w)
    !$acc exit data delete(w)
    !$acc enter data copyin(w(:, 2))
    !$acc exit data delete(w(:, 2))
end program
