--  A protected object with an entry.
with Right_Protected_Data; use Right_Protected_Data;
procedure Right_Protected is
   protected Counter is
      procedure Add (By : Integer);
      entry Wait_For_All;
   private
      Total : Integer := 0;
   end Counter;
   protected body Counter is
      procedure Add (By : Integer) is
      begin
         Total := Total + By;
      end Add;
      entry Wait_For_All when Total >= 20 is
      begin
         null;
      end Wait_For_All;
   end Counter;
   task type Worker (Mine : Integer);
   task body Worker is
   begin
      Shared (Mine) := Mine;
      for I in 1 .. 10 loop
         Counter.Add (1);
      end loop;
   end Worker;
   First : Worker (1);
   Second : Worker (2);
begin
   Counter.Wait_For_All;
   Shared (1) := Shared (1) + Shared (2);
end Right_Protected;
