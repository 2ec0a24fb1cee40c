! A reduction, a critical section, a barrier and a single section.
program right_sum
  implicit none
  integer :: i, total, a(1000)
  total = 0
  !$omp parallel do reduction(+:total) num_threads(2)
  do i = 1, 1000
    a(i) = i
    total = total + i
  end do
  !$omp parallel num_threads(2)
  !$omp critical
  total = total + 1
  !$omp end critical
  !$omp barrier
  !$omp single
  a(1) = total
  !$omp end single
  if (a(1) < 0) print *, 'wrong'
  !$omp end parallel
  print *, total
end program
