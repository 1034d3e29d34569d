! Fortran: explicit, allocatable, pointer and assumed-shape arrays, optional arguments, module variables of declare, and
! the routines.
module m
    integer :: g(4) = [1, 2, 3, 4]
    !$acc declare create(g)
contains
    subroutine shape_assumed(a)
        integer :: a(:)
        !$acc parallel copy(a)
        a(2) = a(2) + 10
        !$acc end parallel
    end subroutine
    subroutine may_be_absent(a, b)
        integer :: a(4)
        integer, optional :: b(4)
        !$acc enter data copyin(b)
        !$acc parallel copy(a, b)
        a(1) = a(1) + 1
        if (present(b)) b(1) = b(1) + 1
        !$acc end parallel
        !$acc update self(b) if_present
        !$acc exit data delete(b)
    end subroutine
    subroutine may_be_allocated(a, b, c)
        integer, allocatable :: a, b(:)
        integer, allocatable, optional :: c(:)
        !$acc data copy(a) copyin(b, c)
        !$acc parallel present(a)
        a = a + 1
        if (allocated(b)) a = a + 10
        if (present(c)) a = a + c(3)
        !$acc end parallel
        !$acc end data
    end subroutine
end module
program arrays
    use m
    use openacc
    integer :: a(4) = [1, 2, 3, 4], b(4) = [5, 6, 7, 8]
    integer, allocatable :: l(:), n(:), z
    integer, pointer :: p(:)
    integer, target :: k(6)
    allocate (l(3:6))
    l = 7
    k = 9
    p => k(2:5)
    !$acc enter data copyin(l)
    !$acc parallel present(l)
    l(4) = l(4) + 1
    !$acc end parallel
    print '(a,i3)', 'host', l(4)
    !$acc exit data copyout(l)
    print '(a,i3)', 'host', l(4)
    !$acc parallel copy(p)
    p(1) = 11
    !$acc end parallel
    print '(a,2i3)', 'pointer', k(1), k(2)
    call shape_assumed(a(1:4:1))
    call shape_assumed(k(3:6))
    print '(a,2i3)', 'assumed', a(2), k(4)
    call may_be_absent(a)
    call may_be_absent(a, b)
    print '(a,2i3)', 'optional', a(1), b(1)
    z = 1
    call may_be_allocated(z, n)
    print '(a,2i3)', 'allocatable', z
    allocate (n(2))
    call may_be_allocated(z, n, l)
    print '(a,2i3)', 'allocatable', z
    !$acc parallel copy(g)
    g(2) = 7
    !$acc end parallel
    print '(a,i3)', 'declare', g(2)
    call acc_copyin(a)
    a(3) = 40
    call acc_update_device(a)
    a(3) = 0
    call acc_update_self(a)
    print '(a,i3,l2)', 'routines', a(3), acc_is_present(a)
    call acc_delete(a)
    print '(l2)', acc_is_present(a)
end program
