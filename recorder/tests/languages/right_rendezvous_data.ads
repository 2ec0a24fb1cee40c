package Right_Rendezvous_Data is
   Value : Integer := 0;
end Right_Rendezvous_Data;
