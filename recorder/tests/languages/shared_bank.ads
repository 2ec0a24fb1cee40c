package Shared_Bank is
   Hits : Integer := 0;
   Counts : array (1 .. 4) of Integer := (others => 0);

   --  Both tasks pass together.
   protected Gate is
      entry Pass;
   private
      Is_Open : Boolean := False;
   end Gate;
end Shared_Bank;
