package body Shared_Bank is
   protected body Gate is
      entry Pass when Pass'Count = 2 or Is_Open is
      begin
         Is_Open := Pass'Count > 0;
      end Pass;
   end Gate;
end Shared_Bank;
