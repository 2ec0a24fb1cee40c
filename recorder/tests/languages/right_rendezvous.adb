--  A task is told by a rendezvous when to begin, and tells by another what it found.
with Right_Rendezvous_Data; use Right_Rendezvous_Data;
procedure Right_Rendezvous is
   task Worker is
      entry Start;
      entry Stop;
   end Worker;
   task body Worker is
   begin
      accept Start;
      Value := Value + 1;
      accept Stop;
   end Worker;
begin
   Value := 1;
   Worker.Start;
   Worker.Stop;
   Value := Value + 1;
end Right_Rendezvous;
