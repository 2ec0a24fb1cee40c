! Atomic updates, and a loop of which each thread has a part of its own.
program right_atomic
  implicit none
  integer :: i, hits
  real(8) :: parts(64)
  hits = 0
  !$omp parallel do num_threads(2) schedule(static)
  do i = 1, 64
    parts(i) = i
    !$omp atomic
    hits = hits + 1
  end do
  print *, hits, sum(parts)
end program
