! One step of a smoothing over the inner points of a grid. The lines between the two marks are what loopw reads.
!$loopw begin
subroutine smooth(n, m, a, b)
  integer, intent(in) :: n, m
  integer(4), intent(in) :: a(n, m)
  integer(4), intent(inout) :: b(n, m)
  do j = 2, m - 1
    do i = 2, n - 1
      b(i, j) = a(i - 1, j) + a(i + 1, j) + a(i, j - 1) + a(i, j + 1) - 4*a(i, j)
    end do
  end do
end subroutine
!$loopw end
