! What one thread writes in a single section that the others don't wait for.
module limits
  integer :: most = 0
end module

program race_single
  use limits
  implicit none
  integer :: seen(2)
  integer, external :: omp_get_thread_num
  !$omp parallel num_threads(2)
  !$omp single
  most = 8                                        ! RACE limits::most
  !$omp end single nowait
  seen(omp_get_thread_num() + 1) = most           ! RACE limits::most
  !$omp end parallel
  print *, seen(1) >= 0
end program
