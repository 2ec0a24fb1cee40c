--  The main program changes an element of an array that a task changes too.
with Shared_Bank; use Shared_Bank;
procedure Race_Element is
   task Payer;
   task body Payer is
   begin
      Gate.Pass;
      for I in 1 .. 100_000 loop
         Counts (2) := Counts (2) + 1;       --  RACE shared_bank__counts[2]
      end loop;
   end Payer;
begin
   Gate.Pass;
   for I in 1 .. 100_000 loop
      Counts (2) := Counts (2) + 1;          --  RACE shared_bank__counts[2]
   end loop;
end Race_Element;
