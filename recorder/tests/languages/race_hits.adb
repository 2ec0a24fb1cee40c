--  Two tasks that begin together count in a package's variable.
with Shared_Bank; use Shared_Bank;
procedure Race_Hits is
   task type Payer;
   task body Payer is
   begin
      Gate.Pass;
      for I in 1 .. 100_000 loop
         Hits := Hits + 1;                       --  RACE shared_bank__hits
      end loop;
   end Payer;
   First, Second : Payer;
begin
   null;
end Race_Hits;
