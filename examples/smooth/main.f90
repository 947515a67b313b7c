! Calls the subroutine of smooth.f90 and the C code that loopw writes for it, and compares what they store.
program main
  use, intrinsic :: iso_c_binding, only: c_int32_t, c_int64_t
  implicit none
  interface
    subroutine loopw_kernel(n, m, a, b) bind(c)
      import :: c_int32_t, c_int64_t
      integer(c_int64_t), value :: n, m
      integer(c_int32_t), intent(in) :: a(*)
      integer(c_int32_t), intent(inout) :: b(*)
    end subroutine
  end interface
  integer, parameter :: n = 100, m = 37
  integer(c_int32_t) :: a(n, m), b(n, m), wanted(n, m)
  integer :: i, j

  do j = 1, m
    do i = 1, n
      a(i, j) = mod(31*i + 17*j*j, 1000)
    end do
  end do
  b = 0
  wanted = 0
  call smooth(n, m, a, wanted)
  call loopw_kernel(int(n, c_int64_t), int(m, c_int64_t), a, b)
  if (any(b /= wanted)) then
    print '(a)', 'the two differ'
    stop 1
  end if
  print '(a)', 'both store the same'
end program
