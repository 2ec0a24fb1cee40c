! A sum of a module's variable without a reduction, and one in a derived type.
module counters
  integer :: hits = 0
  type account
    integer :: id
    real(8) :: balance
  end type
  type(account) :: bank(4)
end module

program race_sum
  use counters
  implicit none
  integer :: i
  bank%balance = 0
  !$omp parallel do num_threads(2)
  do i = 1, 100
    hits = hits + 1                               ! RACE counters::hits
    bank(2)%balance = bank(2)%balance + i         ! RACE counters::bank[2].balance
  end do
  print *, hits > 0
end program
